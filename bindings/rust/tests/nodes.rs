use x3d::{
    Aim, Datagram, Fault, Gathered, Host, Kind, Log, Pointing, Reply, Taken, Viewer, World,
};

const DOOR: &[u8] = b"#X3D V3.0 utf8
DEF Motor TimeSensor { cycleInterval 2 }
DEF Slide PositionInterpolator { key [ 0, 1 ] keyValue [ 0 0 0, 1 0 0 ] }
DEF Door Transform {
  children [
    DEF Knob TouchSensor {}
    Shape { geometry Box { size 1 2 0.1 } }
  ]
}
ROUTE Knob.touchTime TO Motor.startTime
ROUTE Motor.fraction_changed TO Slide.set_fraction
ROUTE Slide.value_changed TO Door.translation
";

fn aim() -> Aim {
    Aim::new([0, 0, 10_000_000], [0, 0, -1_000_000])
}

/// Whether a datagram arrives: about one of five is lost, by a rule without a period that a turn
/// could be in step with.
fn arrives(dice: &mut u32) -> bool {
    *dice = dice.wrapping_mul(1_664_525).wrapping_add(1_013_904_223);
    *dice >> 16 >= 65_536 / 5
}

/// A viewer's turn. Whether it is behind the floor.
fn turn(host: &mut Host, viewer: &mut Viewer, who: u8, dice: &mut u32) -> bool {
    for offer in viewer.offers() {
        if arrives(dice) {
            host.take(&offer).unwrap();
        }
    }
    if arrives(dice) {
        viewer.take(&host.ack(who).unwrap()).unwrap();
    }
    let mut behind = false;
    if arrives(dice) {
        let reply = host.take(&viewer.ask()).unwrap();
        for packet in host.packets(reply) {
            if arrives(dice) {
                behind |= viewer.take(&packet).unwrap() == Taken::Behind;
            }
        }
    }
    behind
}

#[test]
fn two_viewers_end_equal() {
    let mut host = Host::new(DOOR, 2).unwrap();
    let mut one = Viewer::open(DOOR, 0, 1).unwrap();
    let mut other = Viewer::open(DOOR, 1, 1).unwrap();
    let mut dice = 1;
    one.offer(true, &aim()).unwrap();
    one.offer(false, &aim()).unwrap();
    for time in 1..=30 {
        host.clock(10_000_000 + time * 100_000).unwrap();
        turn(&mut host, &mut one, 0, &mut dice);
        turn(&mut host, &mut other, 1, &mut dice);
    }
    for _turn in 0..100 {
        turn(&mut host, &mut one, 0, &mut dice);
        turn(&mut host, &mut other, 1, &mut dice);
    }
    assert_eq!((host.count(), one.applied(), other.applied()), (32, 32, 32));
    assert_eq!(one.waiting(), 0);
    assert_eq!(one.trace(0), other.trace(0));
    assert_eq!(one.scene(), other.scene());
    assert!(one.trace(0).unwrap().contains("Door.translation 1 0 0\n"));
    let door = one.roots().unwrap()[2];
    assert_eq!(one.label(door).unwrap(), "Door");
    let translation = one.field_named(door, "translation").unwrap();
    assert_eq!(one.value(door, translation).unwrap(), "1 0 0");
    assert_eq!(one.field_named(door, "isOpen"), Err(Fault::NoSuchField));
}

#[test]
fn a_datagram_says_who_sends_it() {
    let mut host = Host::new(DOOR, 2).unwrap();
    let mut one = Viewer::open(DOOR, 1, 7).unwrap();
    let aim = Aim::new([1, -2, 3], [0, 0, -1_000_000]);
    one.offer(true, &aim).unwrap();
    let offer = one.resend(0).unwrap();
    let pointing = Pointing {
        who: 1,
        down: true,
        aim,
    };
    let read = Datagram::read(&offer).unwrap();
    assert_eq!(
        read,
        Datagram::Offer {
            boot: 7,
            number: 1,
            pointing
        }
    );
    assert_eq!(read.sender(), Some(1));
    assert_eq!(host.take_from(0, &offer), Err(Fault::BadViewer));
    assert_eq!(host.take_from(1, &offer), Ok(Reply::Numbered(1)));
    let input = Datagram::Input {
        number: 1,
        time: 1,
        pointing: Some(pointing),
    };
    assert_eq!(Datagram::read(&host.packet(1).unwrap()), Ok(input));
    assert_eq!(Datagram::read(&host.floor_packet()), Ok(Datagram::Floor(1)));
    let ask = one.ask();
    assert_eq!(Datagram::read(&ask), Ok(Datagram::Ask { who: 1, next: 1 }));
    assert_eq!(host.heard(1), Ok(None));
    host.take_from(1, &ask).unwrap();
    assert_eq!(host.heard(1), Ok(Some(1)));
    assert_eq!(host.heard(2), Err(Fault::Range));
    assert_eq!(Datagram::read(b"no datagram"), Err(Fault::BadPacket));
    host.keep(0);
    assert_eq!(host.floor(), 1);
}

#[test]
fn a_late_viewer_joins_by_pieces() {
    let mut host = Host::new(DOOR, 2).unwrap();
    let mut first = Viewer::open(DOOR, 0, 1).unwrap();
    let mut late = Viewer::open(DOOR, 1, 1).unwrap();
    for time in 1..=10 {
        host.clock(time * 1_000_000).unwrap();
    }
    let reply = host.take(&first.ask()).unwrap();
    assert_eq!(
        reply,
        Reply::Asked {
            first: 1,
            count: 10
        }
    );
    for packet in host.packets(reply) {
        first.take(&packet).unwrap();
    }
    host.drop_below(11).unwrap();
    assert_eq!((host.floor(), host.packet(10)), (11, None));
    let reply = host.take(&late.ask()).unwrap();
    assert_eq!(reply, Reply::Below(11));
    let floor = host.packets(reply);
    assert_eq!(late.take(&floor[0]), Ok(Taken::Behind));
    let shot = first.snapshot().unwrap();
    assert_eq!(late.join(2), Err(Fault::NotWhole));
    let pieces = first.pieces(&shot);
    for piece in &pieces[1..] {
        assert_eq!(late.gather(piece), Ok(Gathered::New));
    }
    assert_eq!(late.gather(&pieces[0]), Ok(Gathered::Whole));
    assert_eq!(late.join(2), Ok(10));
    assert_eq!((late.boot(), late.applied()), (2, 10));
    assert_eq!(late.scene(), first.scene());
    assert_eq!(late.rewind(&shot, 2), Err(Fault::BootNotNew));
    assert_eq!(late.rewind(&shot, 3), Ok(10));
}

#[test]
fn what_is_refused_changes_nothing() {
    assert!(matches!(Host::new(DOOR, 0), Err(Fault::Range)));
    assert!(matches!(Viewer::open(DOOR, 64, 1), Err(refusal) if refusal.line.is_empty()));
    let refusal = Viewer::open(b"#X3D V3.0 utf8\nGrup {}\n", 0, 1)
        .err()
        .unwrap();
    assert_eq!(refusal.line, "refused UnknownNode line 2");
    let mut host = Host::new(DOOR, 1).unwrap();
    let mut viewer = Viewer::open(DOOR, 0, 1).unwrap();
    assert_eq!(host.clock(0), Err(Fault::TimeNotLater));
    assert_eq!(host.take(b"no datagram"), Err(Fault::BadPacket));
    assert_eq!(host.ack(1), None);
    let ask = viewer.ask();
    assert_eq!(viewer.take(&ask), Err(Fault::NotForMe));
    assert_eq!(
        viewer.offer(true, &Aim::new([0; 3], [0; 3])),
        Err(Fault::ZeroRay)
    );
    let mut world = World::open(DOOR).unwrap();
    assert_eq!(world.script_count(), 0);
    assert_eq!(
        world.replace_script(0, Kind::Gate),
        Err(Fault::NoSuchScript)
    );
}

#[test]
fn a_host_shows_what_its_log_has_alone() {
    let mut host = Host::resume(DOOR, 1, b"").unwrap();
    let mut viewer = Viewer::open(DOOR, 0, 1).unwrap();
    assert!(host.append().unwrap().bytes.is_empty());
    viewer.offer(true, &aim()).unwrap();
    let offer = viewer.resend(0).unwrap();
    assert_eq!(host.clock(5), Ok(1));
    assert_eq!(host.take(&offer), Ok(Reply::Numbered(2)));
    assert_eq!((host.time(), host.packet(1)), (6, None));
    let append = host.append().unwrap();
    assert_eq!(host.append().as_ref(), Ok(&append));
    assert_eq!(host.stored(append.token + 1), Err(Fault::NotAwaited));
    host.stored(append.token).unwrap();
    assert!(host.packet(2).is_some());
    let log = append.bytes;
    let mut again = Host::resume(DOOR, 1, &log).unwrap();
    assert_eq!((again.count(), again.time()), (2, 6));
    assert_eq!(again.take(&offer), Ok(Reply::Repeat));
    let cut = Host::resume(DOOR, 1, &log[..48]).err().unwrap();
    assert_eq!((cut.fault, cut.entry), (Fault::NotALog, Some(1)));
    let gap = [&log[..32], &log[49..]].concat();
    let gap = Host::resume(DOOR, 1, &gap).err().unwrap();
    assert_eq!((gap.fault, gap.entry), (Fault::LogGap, Some(1)));
    let other = Host::resume(b"#X3D V3.0 utf8\n", 1, &log).err().unwrap();
    assert_eq!((other.fault, other.entry), (Fault::WrongScene, None));
    let mut opened = Host::new(DOOR, 1).unwrap();
    assert_eq!(opened.append(), Err(Fault::NotLasting));
}

#[test]
fn routes_are_listed_by_numbers() {
    let mut world = World::open(DOOR).unwrap();
    let mut viewer = Viewer::open(DOOR, 0, 1).unwrap();
    let routes = world.routes().unwrap();
    let mut named = |label, field| {
        let node = world.node_named(label).unwrap();
        (node, world.field_named(node, field).unwrap())
    };
    assert_eq!(routes[0].source, named("Knob", "touchTime"));
    assert_eq!(routes[0].target, named("Motor", "startTime"));
    assert_eq!(routes[2].target, named("Door", "translation"));
    assert_eq!(viewer.routes().unwrap(), routes);
    assert_eq!(routes.len(), 3);
}

#[test]
fn a_log_in_a_file_goes_on() {
    let path = std::env::temp_dir().join(format!("x3d-log-{}", std::process::id()));
    assert_eq!(Log::open(&path, DOOR, None).err().unwrap().fault, Fault::NoLog);
    let mut log = Log::make(&path, DOOR, 1).unwrap();
    assert_eq!((log.count(), log.viewers(), log.read()), (0, 1, Ok(vec![])));
    let busy = Log::open(&path, DOOR, None).err().unwrap();
    assert_eq!((busy.fault, busy.frame), (Fault::LogBusy, None));
    let mut host = Host::resume(DOOR, 1, &log.read().unwrap()).unwrap();
    host.clock(5).unwrap();
    let append = host.append().unwrap();
    assert_eq!(log.append(&append.bytes[32..]), Err(Fault::NotEntries));
    log.append(&append.bytes).unwrap();
    host.stored(append.token).unwrap();
    let run = log.run();
    drop(log);
    assert_eq!(Log::make(&path, DOOR, 1).err(), Some(Fault::NotEmpty));
    assert_eq!(Log::open(&path, DOOR, Some(2)).err().unwrap().fault, Fault::WrongSeats);
    let mut opened = Log::open(&path, DOOR, Some(1)).unwrap();
    assert_eq!((opened.cut, opened.log.run(), opened.log.count()), (0, run, 1));
    assert_eq!(opened.log.read(), Ok(append.bytes));
    drop(opened);
    let mut bytes = std::fs::read(&path).unwrap();
    bytes[90] ^= 1;
    std::fs::write(&path, bytes).unwrap();
    let damaged = Log::open(&path, DOOR, None).err().unwrap();
    assert_eq!((damaged.fault, damaged.frame), (Fault::LogDamaged, Some(1)));
    std::fs::remove_file(&path).unwrap();
}
