//! What is read of a world, of a World and of a Viewer alike.

use crate::raw::RawAim;
use crate::world::Kind;

/// What a viewer points with.
#[derive(Clone, Copy, Debug, PartialEq, Eq)]
pub struct Aim {
    /// Where the ray begins: sizes up to 10^15 millionths.
    pub origin: [i64; 3],
    /// Where it goes: the same, and not 0 0 0.
    pub direction: [i64; 3],
}

impl Aim {
    #[must_use]
    pub fn new(origin: [i64; 3], direction: [i64; 3]) -> Aim {
        Aim { origin, direction }
    }

    pub(crate) fn raw(&self) -> RawAim {
        let ([origin_x, origin_y, origin_z], [direction_x, direction_y, direction_z]) =
            (self.origin, self.direction);
        RawAim {
            origin_x,
            origin_y,
            origin_z,
            direction_x,
            direction_y,
            direction_z,
        }
    }
}

/// What a ray would hit.
#[derive(Clone, Debug, PartialEq, Eq)]
pub struct Meeting {
    /// Where it enters: at `entry.0 / entry.1` of the way along its direction.
    pub entry: (u64, u64),
    /// The sensors that this concerns, by their numbers.
    pub sensors: Vec<u32>,
}

/// The status of a copy without room for all.
const ROOM: u8 = 12;

/// Leaves in `out` all that `call` copies to a place with room for a number of items. The call
/// writes how many there are.
pub(crate) fn copied<T: Clone + Default>(
    out: &mut Vec<T>,
    mut call: impl FnMut(*mut T, usize, *mut usize) -> u8,
) {
    let mut wanted = out.capacity();
    let mut status = ROOM;
    while status == ROOM {
        out.resize(wanted, T::default());
        status = call(out.as_mut_ptr(), out.len(), &mut wanted);
    }
    out.truncate(wanted);
}

const KINDS: [Kind; 6] = [
    Kind::Counter,
    Kind::Gate,
    Kind::Adder,
    Kind::Batch,
    Kind::Mover,
    Kind::Meter,
];

/// The scripts that these numbers list: the node and the kind of each.
pub(crate) fn scripts_of(numbers: &[u32]) -> Vec<(u32, Kind)> {
    let script = |pair: &[u32]| Some((pair[0], *KINDS.get(pair[1] as usize)?));
    numbers.chunks_exact(2).filter_map(script).collect()
}

/// A route: the node and the field that send, and those that take.
#[derive(Clone, Copy, Debug, PartialEq, Eq)]
pub struct Route {
    pub source: (u32, u16),
    pub target: (u32, u16),
}

/// The routes that these numbers list, four for each.
pub(crate) fn routes_of(numbers: &[i64]) -> Vec<Route> {
    let route = |four: &[i64]| Route {
        source: (four[0] as u32, four[1] as u16),
        target: (four[2] as u32, four[3] as u16),
    };
    numbers.chunks_exact(4).map(route).collect()
}

/// The methods that read, by the calls of one of the two.
macro_rules! readable {
    (
        $object:ty,
        $copy_changed:ident,
        $copy_numbers:ident,
        $copy_text:ident,
        $field_count:ident,
        $field_named:ident,
        $field_type:ident,
        $forget_below:ident,
        $list_changed:ident,
        $list_children:ident,
        $list_roots:ident,
        $list_routes:ident,
        $list_scripts:ident,
        $list_value:ident,
        $make_changes:ident,
        $make_field_name:ident,
        $make_label:ident,
        $make_scene:ident,
        $make_trace:ident,
        $make_type:ident,
        $make_value:ident,
        $meet:ident,
        $node_count:ident,
        $node_named:ident,
        $replace_script:ident,
        $script_count:ident,
        $time:ident
    ) => {
        impl $object {
            /// What a ray would hit; the world stays as it is.
            pub fn meet(&mut self, aim: &Aim) -> Result<Option<Meeting>, Fault> {
                let mut met = RawMet::default();
                Fault::told(unsafe { raw::$meet(&mut self.handle, &aim.raw(), &mut met) })?;
                let sensors = self.nodes();
                Ok((met.m != 0).then_some(Meeting {
                    entry: (met.n, met.m),
                    sensors,
                }))
            }

            /// The lines of the trace that are of inputs from a number on; from 0 on it is the
            /// whole trace. Then forgets the lines below that number (see `keep_lines`).
            pub fn trace(&mut self, first: u64) -> Result<String, Fault> {
                Fault::told(unsafe { raw::$make_trace(&mut self.handle, first) })?;
                let text = self.string();
                self.forget_read(first)?;
                Ok(text)
            }

            /// The fields that inputs after number `since` set, each once, with their current
            /// values. `since` is 0, or the number of inputs that were applied when the world was
            /// drawn last. A field that only sends holds no value and is left out. Then forgets the
            /// lines of inputs up to `since` (see `keep_lines`).
            pub fn changed(&mut self, since: u64) -> Result<ChangedFields, Fault> {
                let mut changed = ChangedFields::default();
                self.changed_into(since, &mut changed)?;
                Ok(changed)
            }

            /// Like `changed`, into fields that the caller keeps from frame to frame.
            pub fn changed_into(
                &mut self,
                since: u64,
                changed: &mut ChangedFields,
            ) -> Result<(), Fault> {
                Fault::told(unsafe { raw::$list_changed(&mut self.handle, since) })?;
                copied(&mut changed.fields, |out, room, wanted| unsafe {
                    raw::$copy_changed(&mut self.handle, out, room, wanted)
                });
                self.listed_into(&mut changed.numbers);
                self.forget_read(since.saturating_add(1))
            }

            /// The lines that `trace` gives, by the numbers of nodes and fields. Then forgets those
            /// below that number, like `trace`.
            pub fn changes(&mut self, first: u64) -> Result<Changes, Fault> {
                Fault::told(unsafe { raw::$make_changes(&mut self.handle, first) })?;
                let text = self.string();
                self.forget_read(first)?;
                Ok(Changes { text })
            }

            /// Keeps the lines that were read, if `keeps`: `trace`, `changes` and `changed` forget
            /// none from now on. At first each of them forgets the lines below the number it reads
            /// from, since a program that reads on has read those: so its memory doesn't grow.
            pub fn keep_lines(&mut self, keeps: bool) {
                self.keeps_lines = keeps;
            }

            /// Forgets the lines below a number that was read from, unless they are kept.
            fn forget_read(&mut self, first: u64) -> Result<(), Fault> {
                if self.keeps_lines {
                    return Ok(());
                }
                let next = self.applied().saturating_add(1);
                self.forget_below(first.min(next))
            }

            /// Forgets the lines of the trace that are of inputs below a number, which is at most
            /// that of the next input: `trace`, `changes` and `changed` tell only of those that are
            /// left, and so does a snapshot. Nothing else changes. Faults: `Spoiled`, `Range`.
            pub fn forget_below(&mut self, below: u64) -> Result<(), Fault> {
                Fault::told(unsafe { raw::$forget_below(&mut self.handle, below) })
            }

            /// The text of the scene as it is now.
            pub fn scene(&mut self) -> Result<String, Fault> {
                Fault::told(unsafe { raw::$make_scene(&mut self.handle) })?;
                Ok(self.string())
            }

            /// How many nodes the scene has, which are numbered from 0.
            pub fn node_count(&mut self) -> usize {
                let mut count = 0;
                unsafe { raw::$node_count(&mut self.handle, &mut count) };
                count
            }

            /// The roots of the scene.
            pub fn roots(&mut self) -> Result<Vec<u32>, Fault> {
                Fault::told(unsafe { raw::$list_roots(&mut self.handle) })?;
                Ok(self.nodes())
            }

            /// The nodes in the field `children` of a node; none where it has no such field.
            pub fn children(&mut self, node: u32) -> Result<Vec<u32>, Fault> {
                Fault::told(unsafe { raw::$list_children(&mut self.handle, node) })?;
                Ok(self.nodes())
            }

            /// The word for a node's type, as `Transform`.
            pub fn node_type(&mut self, node: u32) -> Result<String, Fault> {
                Fault::told(unsafe { raw::$make_type(&mut self.handle, node) })?;
                Ok(self.string())
            }

            /// The name of a node that no other node has.
            pub fn label(&mut self, node: u32) -> Result<String, Fault> {
                Fault::told(unsafe { raw::$make_label(&mut self.handle, node) })?;
                Ok(self.string())
            }

            /// How many fields a node has, which are numbered from 0; 0 where there is no such
            /// node.
            pub fn field_count(&mut self, node: u32) -> u32 {
                let mut count = 0;
                unsafe { raw::$field_count(&mut self.handle, node, &mut count) };
                count
            }

            /// The name of a field of a node, as `translation`.
            pub fn field_name(&mut self, node: u32, field: u16) -> Result<String, Fault> {
                Fault::told(unsafe { raw::$make_field_name(&mut self.handle, node, field) })?;
                Ok(self.string())
            }

            /// The number of the field of that name of a node: of its type, or one that a Script
            /// declares.
            pub fn field_named(&mut self, node: u32, name: &str) -> Result<u16, Fault> {
                let mut field = 0;
                let status = unsafe {
                    raw::$field_named(
                        &mut self.handle,
                        node,
                        name.as_ptr(),
                        name.len(),
                        &mut field,
                    )
                };
                Fault::told(status)?;
                Ok(field)
            }

            /// The type and the access of a field of a node.
            pub fn field_type(&mut self, node: u32, field: u16) -> Result<FieldType, Fault> {
                let mut told = RawField::default();
                Fault::told(unsafe { raw::$field_type(&mut self.handle, node, field, &mut told) })?;
                Ok(FieldType::of(&told))
            }

            /// The number of the node with this DEF name, if one node alone has it.
            pub fn node_named(&mut self, name: &str) -> Option<u32> {
                let mut node = 0;
                let status = unsafe {
                    raw::$node_named(&mut self.handle, name.as_ptr(), name.len(), &mut node)
                };
                (status == 0).then_some(node)
            }

            /// The time of the last input in microseconds, or 0 before the first.
            pub fn time(&mut self) -> Result<i64, Fault> {
                let mut time = 0;
                Fault::told(unsafe { raw::$time(&mut self.handle, &mut time) })?;
                Ok(time)
            }

            /// The routes of the scene, in the order of the text; one that the text repeats is
            /// listed once.
            pub fn routes(&mut self) -> Result<Vec<Route>, Fault> {
                Fault::told(unsafe { raw::$list_routes(&mut self.handle) })?;
                Ok(routes_of(&self.listed()))
            }

            /// How many scripts the scene runs, which are numbered from 0.
            pub fn script_count(&mut self) -> usize {
                let mut count = 0;
                unsafe { raw::$script_count(&mut self.handle, &mut count) };
                count
            }

            /// The node and the kind of each script, in the order of their numbers.
            pub fn scripts(&mut self) -> Result<Vec<(u32, Kind)>, Fault> {
                Fault::told(unsafe { raw::$list_scripts(&mut self.handle) })?;
                Ok(scripts_of(&self.nodes()))
            }

            /// Puts a new box of a kind in the place of the k-th script, which goes on in its
            /// state: nothing else changes.
            pub fn replace_script(&mut self, k: usize, kind: Kind) -> Result<(), Fault> {
                Fault::told(unsafe { raw::$replace_script(&mut self.handle, k, kind as u8) })
            }

            /// The text of the value that a field has now, as `0 1.5 0`; nodes have none.
            pub fn value(&mut self, node: u32, field: u16) -> Result<String, Fault> {
                Fault::told(unsafe { raw::$make_value(&mut self.handle, node, field) })?;
                Ok(self.string())
            }

            /// The numbers of that value: truths as 1 and 0, integers, millionths and microseconds
            /// as they are, vectors and colors part by part, nodes as their numbers; a text has
            /// none.
            pub fn numbers(&mut self, node: u32, field: u16) -> Result<Vec<i64>, Fault> {
                Fault::told(unsafe { raw::$list_value(&mut self.handle, node, field) })?;
                Ok(self.listed())
            }

            /// The bytes that were made last.
            fn text(&mut self) -> Vec<u8> {
                let mut out = Vec::new();
                copied(&mut out, |out, room, wanted| unsafe {
                    raw::$copy_text(&mut self.handle, out, room, wanted)
                });
                out
            }

            fn string(&mut self) -> String {
                String::from_utf8(self.text()).expect("a text of the library is UTF-8")
            }

            /// The numbers that were listed last.
            fn listed(&mut self) -> Vec<i64> {
                let mut out = Vec::new();
                self.listed_into(&mut out);
                out
            }

            fn listed_into(&mut self, out: &mut Vec<i64>) {
                copied(out, |out, room, wanted| unsafe {
                    raw::$copy_numbers(&mut self.handle, out, room, wanted)
                });
            }

            fn nodes(&mut self) -> Vec<u32> {
                self.listed()
                    .into_iter()
                    .map(|node| u32::try_from(node).expect("a node's number has 32 bits"))
                    .collect()
            }
        }
    };
}
pub(crate) use readable;
