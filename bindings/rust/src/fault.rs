//! Why a call is refused.

use crate::library;
use crate::raw;
use std::error::Error;
use std::fmt;

/// Why a scene's text is no world.
#[derive(Clone, Debug, PartialEq, Eq)]
pub struct Refusal {
    /// The line that the program prints, as `refused UnknownNode line 3`.
    pub line: String,
    /// Whether memory was refused, and not the scene.
    pub is_memory: bool,
    /// The line of the instance whose braces hold the refused value, if an instance's do.
    pub instance: Option<u32>,
}

const MEMORY: u8 = 5;

impl Refusal {
    /// The refusal of a text by the status and the line of a call.
    pub(crate) fn of(text: &[u8], status: u8, line: &[u8]) -> Refusal {
        let mut instance = 0;
        // SAFETY: the bytes are lent for the call.
        let told = unsafe { raw::x3d_text_instance(text.as_ptr(), text.len(), &mut instance) };
        Refusal {
            line: String::from_utf8_lossy(line).into_owned(),
            is_memory: status == MEMORY,
            instance: (told == 0 && instance > 0).then_some(instance),
        }
    }
}

impl fmt::Display for Refusal {
    fn fmt(&self, f: &mut fmt::Formatter<'_>) -> fmt::Result {
        f.write_str(&self.line)?;
        match self.instance {
            Some(line) => write!(f, ", in the instance on line {line}"),
            None => Ok(()),
        }
    }
}

impl Error for Refusal {}

/// Why no host is resumed from a log.
#[derive(Clone, Copy, Debug, PartialEq, Eq)]
pub struct LogRefusal {
    /// `WrongScene`, `LogGap`, `NotALog`, `Range` or `Memory`.
    pub fault: Fault,
    /// The number of the first wrong entry, from 1, if an entry is wrong.
    pub entry: Option<u64>,
}

impl fmt::Display for LogRefusal {
    fn fmt(&self, f: &mut fmt::Formatter<'_>) -> fmt::Result {
        match self.entry {
            Some(entry) => write!(f, "entry {entry}: {}", self.fault),
            None => self.fault.fmt(f),
        }
    }
}

impl Error for LogRefusal {}

/// Why a call is refused. Nothing has then changed, but that after `Memory` at an input, or while a
/// snapshot is loaded, the world is spoiled: only a snapshot brings one back.
#[derive(Clone, Copy, Debug, PartialEq, Eq)]
#[non_exhaustive]
pub enum Fault {
    /// Memory was refused.
    Memory,
    /// A number is out of its range.
    Range,
    /// A null pointer, a wrong handle, or a second thread in it: only unsafe code brings it about.
    Misuse,
    /// Memory was refused at an earlier input.
    Spoiled,
    /// The input's number is not the next one.
    NotNext,
    /// The input's time is not above that of the last one.
    TimeNotLater,
    /// There is no node of that number.
    NoSuchNode,
    /// The node has no field of that number or name.
    NoSuchField,
    /// The field holds no value: it only sends or takes events, or is a rotation.
    NoValue,
    /// A snapshot of fewer than 85 bytes.
    Short,
    /// No snapshot.
    BadMagic,
    /// A snapshot, or a datagram, of another version.
    BadVersion,
    /// A snapshot, a datagram, or a log, of another scene.
    WrongScene,
    /// A snapshot that was altered.
    BadDigest,
    /// A snapshot of no world of the scene.
    NotCanonical,
    /// The boot is not above that of the snapshot.
    BootNotNew,
    /// The state of a script does not fit.
    ScriptState,
    /// There is no script of that number.
    NoSuchScript,
    /// The script is of another kind.
    KindDiffers,
    /// The bytes are no datagram.
    BadPacket,
    /// The tag of the datagram is unknown.
    BadTag,
    /// A field of the datagram is out of its range.
    BadRange,
    /// The direction is 0 0 0.
    ZeroRay,
    /// There is no such viewer, or the datagram is another viewer's.
    BadViewer,
    /// The world has 2^48 - 1 inputs.
    WorldFull,
    /// The time is above 1000000000000 seconds.
    TimeRange,
    /// The floor is above that.
    FloorBack,
    /// There are no inputs up to that.
    FloorAhead,
    /// The datagram is for another node.
    NotForMe,
    /// A coordinate is above 1000000000.
    PointRange,
    /// 64 offers wait.
    OfferFull,
    /// There are no more numbers for offers.
    OffersSpent,
    /// The datagram is no piece of a snapshot.
    NotPiece,
    /// Pieces of the snapshot are missing.
    NotWhole,
    /// The snapshot is too large to be sent in pieces.
    TooLarge,
    /// An entry of a log has bytes that no host for that many viewers writes.
    NotALog,
    /// An entry of a log is missing.
    LogGap,
    /// The host was not resumed: it has no log.
    NotLasting,
    /// No append with this token is under way.
    NotAwaited,
    /// There is no file of this name, or no folder for one.
    NoLog,
    /// Another handle or program has the log open.
    LogBusy,
    /// The system refused a call on the log's file, or on its folder.
    Device,
    /// A log is to be made in a file that has other bytes.
    NotEmpty,
    /// The file does not begin with the head of a log.
    BadHead,
    /// The log is of another number of viewers.
    WrongSeats,
    /// A frame of the log (entries stored together) was altered, or is misplaced.
    LogDamaged,
    /// The bytes are not the next entries of this log.
    NotEntries,
    /// The log would have more than 2^48 - 1 entries.
    LogFull,
    /// An append failed, and may be stored: drop the log, and open it again.
    InDoubt,
    /// The log's first entries are not in its file: `serve --base` dropped them.
    HasBase,
    /// A status that this crate has no name for, such as one of a later library.
    Other(u8),
}

impl Fault {
    /// What a status says.
    pub(crate) fn told(status: u8) -> Result<(), Fault> {
        Err(match status {
            0 => return Ok(()),
            5 => Fault::Memory,
            11 => Fault::Range,
            13 => Fault::Misuse,
            20 => Fault::Spoiled,
            21 => Fault::NotNext,
            22 => Fault::TimeNotLater,
            23 => Fault::NoSuchNode,
            24 => Fault::NoSuchField,
            28 => Fault::NoValue,
            30 => Fault::Short,
            31 => Fault::BadMagic,
            32 => Fault::BadVersion,
            33 => Fault::WrongScene,
            34 => Fault::BadDigest,
            35 => Fault::NotCanonical,
            36 => Fault::BootNotNew,
            37 => Fault::ScriptState,
            26 => Fault::NoSuchScript,
            27 => Fault::KindDiffers,
            40 => Fault::BadPacket,
            41 => Fault::BadTag,
            42 => Fault::BadRange,
            43 => Fault::ZeroRay,
            44 => Fault::BadViewer,
            45 => Fault::WorldFull,
            46 => Fault::TimeRange,
            47 => Fault::FloorBack,
            48 => Fault::FloorAhead,
            50 => Fault::NotForMe,
            51 => Fault::PointRange,
            52 => Fault::OfferFull,
            53 => Fault::OffersSpent,
            54 => Fault::NotPiece,
            55 => Fault::NotWhole,
            56 => Fault::TooLarge,
            60 => Fault::NotALog,
            61 => Fault::LogGap,
            62 => Fault::NotLasting,
            63 => Fault::NotAwaited,
            70 => Fault::NoLog,
            71 => Fault::LogBusy,
            72 => Fault::Device,
            73 => Fault::NotEmpty,
            74 => Fault::BadHead,
            75 => Fault::WrongSeats,
            76 => Fault::LogDamaged,
            77 => Fault::NotEntries,
            78 => Fault::LogFull,
            79 => Fault::InDoubt,
            80 => Fault::HasBase,
            other => Fault::Other(other),
        })
    }
}

impl fmt::Display for Fault {
    fn fmt(&self, f: &mut fmt::Formatter<'_>) -> fmt::Result {
        f.write_str(match self {
            Fault::Other(status) => library::status_text(*status),
            Fault::Memory => "memory was refused",
            Fault::Range => "a number is out of its range",
            Fault::Misuse => "the handle is wrong, or in use",
            Fault::Spoiled => "memory was refused at an earlier input",
            Fault::NotNext => "the input's number is not the next one",
            Fault::TimeNotLater => "the input's time is not later than that of the last one",
            Fault::NoSuchNode => "there is no node of that number",
            Fault::NoSuchField => "the node has no field of that number or name",
            Fault::NoValue => "the field holds no value",
            Fault::Short => "the snapshot is not whole",
            Fault::BadMagic => "this is not a snapshot",
            Fault::BadVersion => "the version is none that is read",
            Fault::WrongScene => "this is of another scene",
            Fault::BadDigest => "the snapshot was altered",
            Fault::NotCanonical => "the snapshot is none that could be written",
            Fault::BootNotNew => "the boot is not above the earlier ones",
            Fault::ScriptState => "the state of a script does not fit",
            Fault::NoSuchScript => "there is no script of that number",
            Fault::KindDiffers => "the script is of another kind",
            Fault::BadPacket => "the bytes are no datagram",
            Fault::BadTag => "the tag of the datagram is unknown",
            Fault::BadRange => "a field of the datagram is out of its range",
            Fault::ZeroRay => "the direction is 0 0 0",
            Fault::BadViewer => "there is no such viewer",
            Fault::WorldFull => "the world has 2^48 - 1 inputs",
            Fault::TimeRange => "the time is above 1000000000000 seconds",
            Fault::FloorBack => "the floor is above that",
            Fault::FloorAhead => "there are no inputs up to that",
            Fault::NotForMe => "the datagram is for another node",
            Fault::PointRange => "a coordinate is above 1000000000",
            Fault::OfferFull => "64 offers wait",
            Fault::OffersSpent => "there are no more numbers for offers",
            Fault::NotPiece => "the datagram is no piece of a snapshot",
            Fault::NotWhole => "pieces of the snapshot are missing",
            Fault::TooLarge => "the snapshot is too large to be sent in pieces",
            Fault::NotALog => "the log has an entry that no host for that many viewers writes",
            Fault::LogGap => "an entry of the log is missing",
            Fault::NotLasting => "the host was not resumed",
            Fault::NotAwaited => "no append with this token is under way",
            Fault::NoLog => "there is no file of this name, or no folder for one",
            Fault::LogBusy => "another handle or program has the log open",
            Fault::Device => "the system refused a call on the log's file",
            Fault::NotEmpty => "the file has other bytes than those of a log",
            Fault::BadHead => "the file does not begin with the head of a log",
            Fault::WrongSeats => "the log is of another number of viewers",
            Fault::LogDamaged => "a frame of the log is damaged",
            Fault::NotEntries => "the bytes are not the next entries of the log",
            Fault::LogFull => "the log is full",
            Fault::InDoubt => "an append failed, and may be stored",
            Fault::HasBase => "the first entries are not in the file of the log",
        })
    }
}

impl Error for Fault {}

#[cfg(test)]
mod tests {
    use super::Fault;

    #[test]
    fn an_unknown_status_is_kept() {
        let fault = Fault::told(200).unwrap_err();
        assert_eq!(fault, Fault::Other(200));
        assert_eq!(fault.to_string(), "unknown status");
    }

    #[test]
    fn a_status_without_a_name_here_has_the_text_of_the_library() {
        let fault = Fault::told(10).unwrap_err();
        assert_eq!(fault.to_string(), "the handle holds nothing");
    }
}
