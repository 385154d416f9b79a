//! A shared X3D world inside another program: safe Rust over the library `x3d`, whose calls
//! `include/x3d.h` declares.
//!
//! ```
//! use x3d::{Aim, World};
//!
//! let scene = b"#X3D V3.0 utf8\nDEF Knob TouchSensor {}\nShape { geometry Box {} }\n";
//! let mut world = World::open(scene)?;
//! world.point(1, 1, 0, true, &Aim::new([0, 0, 10_000_000], [0, 0, -1_000_000]))?;
//! for event in &world.changes(1)? {
//!     let node = world.label(event.node)?;
//!     let field = world.field_name(event.node, event.field)?;
//!     println!("{node}.{field} sent {}", event.value);
//! }
//! for field in world.changed(0)?.iter() {
//!     println!("node {}, field {}: {:?}", field.node, field.field, field.numbers); // draw this
//! }
//! # Ok::<(), Box<dyn std::error::Error>>(())
//! ```
//!
//! A shared world is a host and viewers, whose datagrams the program carries between them:
//!
//! ```
//! use x3d::{Host, Viewer};
//!
//! let scene = b"#X3D V3.0 utf8\nDEF Motor TimeSensor { loop TRUE }\n";
//! let (mut host, mut viewer) = (Host::new(scene, 2)?, Viewer::open(scene, 0, 1)?);
//! host.clock(10_000_000)?;
//! let reply = host.take(&viewer.ask())?;
//! for packet in host.packets(reply) {
//!     viewer.take(&packet)?;
//! }
//! assert_eq!(viewer.applied(), 1);
//! # Ok::<(), Box<dyn std::error::Error>>(())
//! ```
//!
//! Coordinates are whole millionths of a unit, times whole microseconds.

mod changed;
mod changes;
mod datagram;
mod fault;
mod host;
mod library;
mod log;
mod packet;
mod part;
mod raw;
mod reading;
mod viewer;
mod world;

pub use changed::{Access, Changed, ChangedFields, FieldType, ValueType};
pub use changes::{Change, Changes};
pub use datagram::{Datagram, Pointing};
pub use fault::{Fault, LogRefusal, Refusal};
pub use host::{Append, Host, Reply};
pub use library::{is_compatible, version};
pub use log::{Log, LogFault, Opened};
pub use packet::Packet;
pub use part::{LeftKind, LeftOut, Part};
pub use reading::{Aim, Meeting, Route};
pub use viewer::{Gathered, Taken, Viewer};
pub use world::{Kind, Saved, Work, World};
