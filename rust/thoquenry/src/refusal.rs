//! The refusals: document 01's numbers and places, each by its name, and their words.

use crate::layers::LayerIndex;
use std::error::Error;
use std::fmt;

/// The refusals in words: lines of number, name, what the place counts and what it means, with tabs between them.
const WORDS: &str = include_str!("refusals.tsv");

/// What a place is.
trait Place: Sized {
    fn of(number: usize) -> Option<Self>;
    fn number(self) -> usize;
}

impl Place for usize {
    fn of(number: usize) -> Option<usize> {
        Some(number)
    }
    fn number(self) -> usize {
        self
    }
}

impl Place for LayerIndex {
    fn of(number: usize) -> Option<LayerIndex> {
        u8::try_from(number).ok().map(LayerIndex)
    }
    fn number(self) -> usize {
        usize::from(self.0)
    }
}

/// Makes the enum and its functions out of one list: each refusal's number, name and place.
macro_rules! refusals {
    ($(
        $(#[$words:meta])*
        $number:literal $name:ident $({
            $(#[$what:meta])*
            $place:ident: $kind:ty
        })?,
    )*) => {
        /// Why a call is refused: the lowest number that applies, at the earliest place. It prints as its number and words, with the place
        /// where `{}` stands here: `15: row 3, the head of a unit, has no assembly`.
        #[derive(Clone, Copy, Debug, PartialEq, Eq, Hash)]
        #[non_exhaustive]
        pub enum Refusal {
            $(
                $(#[$words])*
                $name $({
                    $(#[$what])*
                    $place: $kind,
                })?,
            )*
        }

        impl Refusal {
            /// The refusal of this number at this place, or nothing where document 01 lists no such number.
            pub fn of(number: u8, place: usize) -> Option<Refusal> {
                match number {
                    $($number => Some(Refusal::$name $({ $place: <$kind as Place>::of(place)? })?),)*
                    _ => None,
                }
            }

            /// The number under which document 01 lists it.
            pub fn number(self) -> u8 {
                match self {
                    $(Refusal::$name $({ $place: _ })? => $number,)*
                }
            }

            /// Its place: an entry, a row or a layer index, and 0 where document 01 names none.
            pub fn place(self) -> usize {
                match self {
                    $(Refusal::$name $({ $place })? => 0 $(+ $place.number())?,)*
                }
            }
        }
    };
}

refusals! {
    /// 1: the loop is longer than 1,008 bytes.
    1 LoopTooLong,
    /// 2: entry {}, or a descriptor in it, doesn't fit in the bytes that hold it.
    2 DoesNotFit {
        /// The entry, from 0.
        entry: usize
    },
    /// 3: entry {} has a PID seen in an earlier entry.
    3 RepeatedPid {
        /// The entry, from 0.
        entry: usize
    },
    /// 4: entry {}, a known stream, has tag 4 with length not 4, or the extension with another length than its count demands.
    4 WrongLength {
        /// The entry, from 0.
        entry: usize
    },
    /// 5: entry {}, a known stream, has two hierarchy records.
    5 SecondRecord {
        /// The entry, from 0.
        entry: usize
    },
    /// 6: entry {} has a type not allowed on this stream, or an extension on 0x1B, 0x1F or 0x20; or, to be written, its implied mark isn't what two views without a hierarchy descriptor give.
    6 TypeNotAllowed {
        /// The entry, from 0.
        entry: usize
    },
    /// 7: entry {} has type 9 with a flag at 0, or more than one flag at 0 and type not 8.
    7 WrongFlags {
        /// The entry, from 0.
        entry: usize
    },
    /// 8: entry {} has a layer index, written or implied, held by an earlier layer.
    8 RepeatedLayerIndex {
        /// The entry, from 0.
        entry: usize
    },
    /// 9: entry {} has an embedded index not below the layer's own, or listed twice.
    9 WrongEmbeddedIndex {
        /// The entry, from 0.
        entry: usize
    },
    /// 11: there is no layer with the target index.
    11 NoSuchLayer,
    /// 12: layer index {} is in the closure, and its layer is not in the loop.
    12 EmbeddedLayerAbsent {
        /// The lowest missing index.
        index: LayerIndex
    },
    /// 13: row {} is out of range; or, at row 0, the row columns are of unequal length or there are more than 512 rows, or than the columns or the work space have places.
    13 OutOfRange {
        /// The row, from 0.
        row: usize
    },
    /// 14: row {} breaks the time order in its layer, which is in the closure.
    14 TimeOrderBroken {
        /// The row, from 0.
        row: usize
    },
    /// 15: row {}, the head of a unit, has no assembly.
    15 Unpaired {
        /// The row, from 0.
        row: usize
    },
    /// 16: row {}, the head of a unit, would share a row with a head before it.
    16 UsedTwice {
        /// The row, from 0.
        row: usize
    },
    /// 17: the output room is too small.
    17 NoRoom,
    /// 18: the decoding times of the closure rows lie 2^32 ticks or more apart.
    18 SpanTooWide,
    /// 20: this is not a video PES header.
    20 NotVideoHeader,
    /// 21: PTS_DTS_flags is 00 or 01.
    21 NoPts,
    /// 22: flagged fields don't fit PES_header_data_length or their own length byte.
    22 FieldsDoNotFit,
    /// 23: a marker or prefix bit of PTS, DTS, TREF or the extension length is wrong.
    23 WrongMarker,
    /// 24: PTS lies before DTS.
    24 PtsBeforeDts,
    /// 25: a value to be written is too wide for its field.
    25 TooWide,
    /// 30: packet {} has lost sync, or is the last part of one.
    30 LostSync {
        /// The packet, from 0.
        packet: usize
    },
    /// 31: packet {}, on a layer's PID, has another counter than the next one, and no discontinuity indicator.
    31 CounterGap {
        /// The packet, from 0.
        packet: usize
    },
    /// 32: packet {}, on a layer's PID, has an adaptation field, or a PES header (9 bytes and its data), that is not within it.
    32 OutsidePacket {
        /// The packet, from 0.
        packet: usize
    },
    /// 33: packet {}, on a layer's PID, has a scrambled payload.
    33 Scrambled {
        /// The packet, from 0.
        packet: usize
    },
    /// 40: the program's descriptor loop is longer than 1,008 bytes, a descriptor in it runs past it, or the fields of an operation point descriptor don't fill its length exactly.
    40 PointsDoNotFit,
    /// 41: an operation point has the reserved ES_count 0xFF.
    41 ReservedEsCount,
    /// 42: an operation point refers to, or is to prepend, what is no layer of the loop.
    42 UnknownReference,
    /// 44: the loop has not exactly two layers, a base of type 0x1B and index 0 and a view of type 0x20 and index 1 resting on it.
    44 NotStereoSet,
    /// 45: on one of the two views the MVC extension descriptor is missing, doubled or of another length than 8.
    45 WrongMvcExtension,
    /// 46: a range of view order index has a least above its greatest, or the two ranges share an index.
    46 RangesMeet,
}

impl Refusal {
    /// What it means, in document 01's words.
    pub fn words(self) -> String {
        let number = self.number().to_string();
        let mut lines = WORDS.lines().map(|line| line.split('\t'));
        let words = lines.find_map(|mut parts| match parts.next() {
            Some(first) if first == number => parts.nth(2),
            _ => None,
        });
        let words = words.expect("every number has its words");
        words.replace("{}", &self.place().to_string())
    }
}

impl fmt::Display for Refusal {
    fn fmt(&self, to: &mut fmt::Formatter) -> fmt::Result {
        write!(to, "{}: {}", self.number(), self.words())
    }
}

impl Error for Refusal {}
