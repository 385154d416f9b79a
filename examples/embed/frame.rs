//! A game loop in Rust: a world is moved on in each frame, and only the fields that were set are
//! drawn. The "renderer" keeps a copy of each field; at the end it is compared with the world.

use std::collections::BTreeMap;
use std::error::Error;
use x3d::{Aim, ChangedFields, Fault, World};

const SCENE: &[u8] = b"#X3D V3.0 utf8
DEF Motor TimeSensor { cycleInterval 2 }
DEF Slide PositionInterpolator { key [ 0, 1 ] keyValue [ 0 0 0, 1 0 0 ] }
DEF Door Transform {
  children [
    DEF Knob TouchSensor {}
    Shape { geometry Box { size 1 2 0.1 } }
  ]
}
ROUTE Knob.touchTime TO Motor.startTime
ROUTE Motor.fraction_changed TO Slide.set_fraction
ROUTE Slide.value_changed TO Door.translation
";

/// What is drawn: the numbers of each field that holds a value.
type Picture = BTreeMap<(u32, u16), Vec<i64>>;

/// Returns the picture of the whole scene, as at the start.
fn walked(world: &mut World) -> Result<Picture, Fault> {
    let mut picture = Picture::new();
    for node in 0..u32::try_from(world.node_count()).expect("node numbers have 32 bits") {
        for field in 0..u16::try_from(world.field_count(node)).expect("field numbers have 16 bits")
        {
            match world.numbers(node, field) {
                Ok(numbers) => picture.insert((node, field), numbers),
                Err(Fault::NoValue) => None, // it only sends or receives
                Err(fault) => return Err(fault),
            };
        }
    }
    Ok(picture)
}

/// A world, the number of its inputs, and what the program drew of it.
struct Game {
    world: World,
    inputs: u64,
    time: i64,
    changed: ChangedFields,
    picture: Picture,
}

impl Game {
    fn new() -> Result<Game, Box<dyn Error>> {
        let mut world = World::open(SCENE)?;
        let picture = walked(&mut world)?;
        Ok(Game {
            world,
            inputs: 0,
            time: 10_000_000,
            changed: ChangedFields::default(),
            picture,
        })
    }

    fn click(&mut self, down: bool) -> Result<(), Fault> {
        let aim = Aim::new([0, 0, 10_000_000], [0, 0, -1_000_000]);
        self.time += 1;
        self.world
            .point(self.inputs + 1, self.time, 0, down, &aim)?;
        self.inputs += 1;
        Ok(())
    }

    /// Moves the world on by a frame, and draws what inputs set since the last frame.
    fn frame(&mut self, drawn: u64) -> Result<usize, Fault> {
        self.time += 16_667;
        self.world.clock(self.inputs + 1, self.time)?;
        self.inputs += 1;
        self.world.changed_into(drawn, &mut self.changed)?;
        for field in self.changed.iter() {
            let place = (field.node, field.field);
            self.picture.insert(place, field.numbers.to_vec());
        }
        Ok(self.changed.len())
    }
}

fn main() -> Result<(), Box<dyn Error>> {
    let mut game = Game::new()?;
    let mut fields = 0;
    for frame in 0..180 {
        let drawn = game.inputs;
        match frame {
            10 => game.click(true)?,
            14 => game.click(false)?,
            _ => {}
        }
        fields += game.frame(drawn)?;
    }
    let door = game.world.roots()?[2];
    let translation = game.world.field_named(door, "translation")?;
    let place = &game.picture[&(door, translation)];
    println!(
        "180 frames, {fields} fields drawn, the door is at {} millionths",
        place[0]
    );
    assert_eq!(place[0], 1_000_000);
    assert_eq!(game.picture, walked(&mut game.world)?);
    Ok(())
}
