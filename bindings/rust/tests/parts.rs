//! The part of a text, and the instance that a text is refused for.
use x3d::{Host, LeftKind, LeftOut, Part, Viewer, World};

const SCENE: &[u8] = b"#X3D V3.0 utf8
DEF Pot Teapot { size 2 }
DEF Door Transform { children [ Shape { geometry Knot { } } ] }
DEF Link Anchor { children [ Shape { } ] }
ROUTE Pot.out TO Door.translation
";
const LAMPS: &[u8] = b"#X3D V3.0 utf8
PROTO Lamp [ inputOutput SFFloat power 1 ]
{ PointLight { intensity IS power } }
Lamp { power 0.5 }
Lamp { power TRUE }
";

#[test]
fn what_was_left_out() -> Result<(), Box<dyn std::error::Error>> {
    let mut part = Part::open(SCENE)?;
    let left = |line, kind| LeftOut { line, kind };
    assert_eq!(
        part.left_out(),
        [
            left(2, LeftKind::Node),
            left(3, LeftKind::Node),
            left(4, LeftKind::Grouped),
            left(5, LeftKind::Route),
        ]
    );
    assert_eq!(
        part.notes(),
        "line 2: node Teapot left out
line 3: node Knot left out (field geometry)
line 4: node Anchor read as a group
line 5: ROUTE left out: no node Pot
3 left out, 1 read as groups
"
    );
    Ok(())
}

#[test]
fn the_world_of_a_part_is_that_of_its_text() -> Result<(), Box<dyn std::error::Error>> {
    let mut part = Part::open(SCENE)?;
    let text = part.text();
    let (mut one, mut other) = (World::open(&text)?, World::of_part(&mut part)?);
    assert_eq!(one.snapshot(1)?, other.snapshot(1)?);
    let (mut host, mut viewer) = (Host::new(&text, 1)?, Viewer::open(&text, 0, 1)?);
    host.clock(10)?;
    let reply = host.take(&viewer.ask())?;
    for packet in host.packets(reply) {
        viewer.take(&packet)?;
    }
    assert_eq!(viewer.applied(), 1);
    Ok(())
}

#[test]
fn a_refusal_names_the_instance() {
    let world = World::open(LAMPS).err().expect("a refusal");
    let viewer = Viewer::open(LAMPS, 0, 1).err().expect("a refusal");
    assert_eq!(world, viewer);
    assert_eq!(world.instance, Some(5));
    let told = "refused WrongType line 3, in the instance on line 5";
    assert_eq!(world.to_string(), told);
    let part = Part::open(b"#VRML V1.0 ascii\n").err().expect("a refusal");
    assert_eq!(part.to_string(), "refused NoHeader line 1");
    assert_eq!(part.instance, None);
}
