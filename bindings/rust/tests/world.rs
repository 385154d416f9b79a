use std::thread;
use x3d::{Access, Aim, Fault, Kind, ValueType, World};

const DOOR: &[u8] = b"#X3D V3.0 utf8
DEF Motor TimeSensor { cycleInterval 2 }
DEF Slide PositionInterpolator { key [ 0, 1 ] keyValue [ 0 0 0, 1 0 0 ] }
DEF Door Transform {
  children [
    DEF Knob TouchSensor {}
    Shape { geometry Box { size 1 2 0.1 } }
  ]
}
ROUTE Knob.touchTime TO Motor.startTime
ROUTE Motor.fraction_changed TO Slide.set_fraction
ROUTE Slide.value_changed TO Door.translation
";

/// Two routes set one field: at one second to `0.5 0 0`, and then to `0 2.5 0`.
const TWICE: &[u8] = b"#X3D V3.0 utf8
DEF Motor TimeSensor { cycleInterval 2 }
DEF Slide PositionInterpolator { key [ 0, 1 ] keyValue [ 0 0 0, 1 0 0 ] }
DEF Lift PositionInterpolator { key [ 0, 1 ] keyValue [ 0 0 0, 0 5 0 ] }
DEF Door Transform {}
ROUTE Motor.fraction_changed TO Slide.set_fraction
ROUTE Motor.fraction_changed TO Lift.set_fraction
ROUTE Slide.value_changed TO Door.translation
ROUTE Lift.value_changed TO Door.translation
";

fn aim() -> Aim {
    Aim::new([0, 0, 10_000_000], [0, 0, -1_000_000])
}

fn node(world: &mut World, label: &str) -> u32 {
    let count = u32::try_from(world.node_count()).unwrap();
    (0..count)
        .find(|node| world.label(*node).unwrap() == label)
        .unwrap()
}

fn clicked() -> World {
    let mut world = World::open(DOOR).unwrap();
    world.clock(1, 10_000_000).unwrap();
    world.point(2, 10_000_001, 0, true, &aim()).unwrap();
    world.point(3, 10_000_002, 0, false, &aim()).unwrap();
    world
}

#[test]
fn a_world_forgets_old_lines_alone() {
    let (mut world, mut whole) = (clicked(), clicked());
    for each in [&mut world, &mut whole] {
        each.clock(4, 11_000_002).unwrap();
    }
    let size = whole.snapshot(1).unwrap().len();
    assert_eq!(world.forget_below(6), Err(Fault::Range));
    world.forget_below(4).unwrap();
    assert_eq!(world.trace(0).unwrap(), whole.trace(4).unwrap());
    assert_eq!(world.changed(3).unwrap(), whole.changed(3).unwrap());
    assert!(world.snapshot(1).unwrap().len() < size);
    for each in [&mut world, &mut whole] {
        each.clock(5, 11_500_002).unwrap();
    }
    assert_eq!(world.trace(0).unwrap(), whole.trace(4).unwrap());
    assert_eq!(world.scene().unwrap(), whole.scene().unwrap());
}

#[test]
fn reading_on_forgets_what_was_read() {
    let reads: [fn(&mut World); 3] = [
        |each| drop(each.trace(3).unwrap()),
        |each| drop(each.changes(3).unwrap()),
        |each| drop(each.changed(2).unwrap()),
    ];
    for read in reads {
        let (mut world, mut whole) = (clicked(), clicked());
        whole.keep_lines(true);
        let (lines, late) = (whole.trace(0).unwrap(), whole.trace(3).unwrap());
        assert_eq!(world.trace(0).unwrap(), lines);
        read(&mut world);
        read(&mut whole);
        assert_eq!(world.trace(0).unwrap(), late);
        assert_eq!(whole.trace(0).unwrap(), lines);
        assert!(!late.is_empty() && late != lines);
        world.changes(u64::MAX).unwrap();
        assert_eq!(world.trace(0).unwrap(), "");
    }
}

#[test]
fn a_line_may_have_another_value_than_its_field() {
    let mut world = World::open(TWICE).unwrap();
    world.clock(1, 1_000_000).unwrap();
    let door = node(&mut world, "Door");
    let translation = world.field_named(door, "translation").unwrap();
    let lines = world.changes(1).unwrap();
    let sent: Vec<_> = lines
        .into_iter()
        .filter(|change| change.node == door)
        .map(|change| change.value)
        .collect();
    assert_eq!(sent, ["0.5 0 0"]);
    assert_eq!(world.value(door, translation).unwrap(), "0 2.5 0");
    assert_eq!(world.numbers(door, translation).unwrap(), [0, 2_500_000, 0]);
    let changed = world.changed(0).unwrap();
    let drawn: Vec<_> = changed.iter().filter(|field| field.node == door).collect();
    assert_eq!(drawn.len(), 1);
    assert_eq!(
        (drawn[0].field, drawn[0].value_type),
        (translation, ValueType::SFVec3f)
    );
    assert_eq!(drawn[0].numbers, [0, 2_500_000, 0]);
    assert!(world.changed(1).unwrap().is_empty());
}

#[test]
fn a_click_opens_the_door() {
    let mut world = clicked();
    let work = world.clock(4, 11_000_002).unwrap();
    // The motor sends isActive, cycleTime, fraction_changed, elapsedTime and time, the slide and
    // the door one each.
    assert_eq!((work.sends, work.deliveries, work.settles), (7, 2, 0));
    let door = node(&mut world, "Door");
    let translation = world.field_named(door, "translation").unwrap();
    assert_eq!(world.value(door, translation).unwrap(), "0.5 0 0");
    assert_eq!(world.numbers(door, translation).unwrap(), [500_000, 0, 0]);
    let changes = world.changes(4).unwrap();
    let moved: Vec<_> = changes
        .into_iter()
        .filter(|change| change.node == door)
        .collect();
    assert_eq!(moved.len(), 1);
    assert_eq!(
        (
            moved[0].input,
            moved[0].time,
            moved[0].field,
            moved[0].value
        ),
        (4, 11_000_002, translation, "0.5 0 0")
    );
    assert!(
        world
            .trace(4)
            .unwrap()
            .contains("4 11.000002 Door.translation 0.5 0 0\n")
    );
}

#[test]
fn a_ray_meets_the_door_without_an_input() {
    let mut world = World::open(DOOR).unwrap();
    let knob = node(&mut world, "Knob");
    let met = world.meet(&aim()).unwrap().unwrap();
    assert_eq!(met.sensors, [knob]);
    // From 10 units away it enters at 9.95 of them.
    let (n, m) = met.entry;
    assert_eq!(u128::from(n) * 100, u128::from(m) * 995);
    assert_eq!(
        world.meet(&Aim::new([5_000_000, 0, 0], [1, 0, 0])).unwrap(),
        None
    );
    assert_eq!(
        world.meet(&Aim::new([0, 0, 0], [0, 0, 0])),
        Err(Fault::Range)
    );
    assert_eq!(world.applied(), 0);
}

#[test]
fn nodes_stand_as_in_the_text() {
    let mut world = World::open(DOOR).unwrap();
    let roots: Vec<_> = world
        .roots()
        .unwrap()
        .into_iter()
        .map(|root| world.label(root).unwrap())
        .collect();
    assert_eq!(roots, ["Motor", "Slide", "Door"]);
    let door = node(&mut world, "Door");
    let children = world.children(door).unwrap();
    assert_eq!(children.len(), 2);
    assert_eq!(world.node_type(children[1]).unwrap(), "Shape");
    let geometry = world.field_named(children[1], "geometry").unwrap();
    let shape = u32::try_from(world.numbers(children[1], geometry).unwrap()[0]).unwrap();
    let size = world.field_named(shape, "size").unwrap();
    assert_eq!(
        world.numbers(shape, size).unwrap(),
        [1_000_000, 2_000_000, 100_000]
    );
    let many = u32::try_from(world.node_count()).unwrap();
    assert_eq!(world.label(many), Err(Fault::NoSuchNode));
    assert_eq!(world.value(door, u16::MAX), Err(Fault::NoSuchField));
}

const COUNT: &[u8] = b"#X3D V3.0 utf8
DEF Door Transform { translation 0 1.5 0 }
DEF Count Script {
  url \"x3dshare:counter\"
  inputOnly SFBool tick
  initializeOnly SFInt32 start 5
  initializeOnly SFInt32 step 2
  outputOnly SFInt32 count
}
";

#[test]
fn fields_are_found_by_their_names() {
    let mut world = World::open(COUNT).unwrap();
    let (door, count) = (0, 1);
    for node in [door, count] {
        for field in 0..u16::try_from(world.field_count(node)).unwrap() {
            let name = world.field_name(node, field).unwrap();
            assert_eq!(world.field_named(node, &name), Ok(field));
        }
    }
    // A Script has metadata, url, directOutput and mustEvaluate, and behind them what it declares.
    assert_eq!(world.field_named(count, "tick"), Ok(4));
    assert_eq!(world.field_named(count, "count"), Ok(7));
    let start = world.field_named(count, "start").unwrap();
    assert_eq!(world.value(count, start).unwrap(), "5");
    let translation = world.field_named(door, "translation").unwrap();
    assert_eq!(world.value(door, translation).unwrap(), "0 1.5 0");
    for name in ["count", "set_translation", "translation\0", ""] {
        assert_eq!(world.field_named(door, name), Err(Fault::NoSuchField));
    }
    assert_eq!(world.field_named(2, "url"), Err(Fault::NoSuchField));
}

#[test]
fn worlds_go_to_other_threads() {
    let mut threads = Vec::new();
    for _world in 0..4 {
        let mut world = clicked();
        threads.push(thread::spawn(move || {
            for number in 4..200 {
                let time = 7_000_000 + number as i64 * 1_000_000;
                world.clock(number, time).unwrap();
            }
            world
        }));
    }
    let mut ends = Vec::new();
    for thread in threads {
        let mut world = thread.join().unwrap();
        ends.push((world.trace(0).unwrap(), world.scene().unwrap()));
    }
    assert!(ends[0].0.contains(" Door.translation 1 0 0\n"));
    assert!(ends.iter().all(|end| *end == ends[0]));
}

#[test]
fn a_snapshot_goes_back() {
    let mut world = clicked();
    let shot = world.snapshot(1).unwrap();
    let scene = world.scene().unwrap();
    world.clock(4, 11_000_002).unwrap();
    assert_eq!(world.load(1, &shot), Err(Fault::BootNotNew));
    assert_eq!(world.load(2, &shot[..50]), Err(Fault::Short));
    let saved = world.load(2, &shot).unwrap();
    assert_eq!((saved.boot, saved.applied), (1, 3));
    assert_eq!(world.scene().unwrap(), scene);
    assert_eq!(world.applied(), 3);
}

#[test]
fn what_is_refused_changes_nothing() {
    assert_eq!(
        World::open(b"#X3D V3.0 utf8\nGrup {}\n")
            .err()
            .unwrap()
            .line,
        "refused UnknownNode line 2"
    );
    let mut world = World::open(DOOR).unwrap();
    assert_eq!(world.clock(2, 5), Err(Fault::NotNext));
    assert_eq!(world.clock(0, 5), Err(Fault::Range));
    assert_eq!(world.clock(1, 0), Err(Fault::Range));
    assert_eq!(world.point(1, 5, 64, false, &aim()), Err(Fault::Range));
    world.clock(1, 5).unwrap();
    assert_eq!(world.clock(2, 5), Err(Fault::TimeNotLater));
    assert_eq!(world.applied(), 1);
}

#[test]
fn types_names_scripts_and_time() -> Result<(), Box<dyn std::error::Error>> {
    let mut world = World::open(COUNT)?;
    let door = world.node_named("Door").expect("a door");
    let count = world.node_named("Count").expect("a script");
    assert_eq!(world.node_named("N0"), None);
    assert_eq!(world.scripts()?, [(count, Kind::Counter)]);
    let translation = world.field_named(door, "translation")?;
    let told = world.field_type(door, translation)?;
    assert_eq!(
        (told.value_type, told.access),
        (ValueType::SFVec3f, Access::InputOutput)
    );
    let tick = world.field_named(count, "tick")?;
    assert_eq!(world.field_type(count, tick)?.access, Access::InputOnly);
    assert_eq!(world.value(count, tick), Err(Fault::NoValue));
    assert_eq!(world.field_type(count, 99), Err(Fault::NoSuchField));
    assert_eq!(world.time()?, 0);
    world.clock(1, 12)?;
    assert_eq!(world.time()?, 12);
    Ok(())
}
