//! A plain second implementation behind the same C boundary, for builds without the library
//! (`--cfg model`). With the model in `checker.rs` it shares what overrides what, given which box is
//! nested in which, and no other code or method.
//!
//! It can also be told to be wrong in one of many ways, so that the comparison can be shown to
//! notice each of them.

#[allow(dead_code)]
#[path = "checker.rs"]
mod checker;
#[path = "standin_pack.rs"]
mod packing;

use std::slice::{from_raw_parts, from_raw_parts_mut};
use std::sync::atomic::{AtomicUsize, Ordering::Relaxed};

/// What a call answers, and its kinds, as `include/rights.h` has them.
#[repr(C)]
pub struct Reply {
    kind: u32,
    number: u32,
    a: u64,
    b: u64,
    c: u64,
}

const DENIED: u32 = 0;
const GRANTED: u32 = 1;
const UNCLEAR: u32 = 2;
const DENIED_BY_DEFAULT: u32 = 3;
const REFUSED: u32 = 4;
const DONE: u32 = 5;

/// Lists the ways to be wrong once, as an enum and as a table of names.
macro_rules! ways {
    ($($way:ident: $says:literal,)*) => {
        #[derive(Clone, Copy, PartialEq, Eq)]
        pub enum Wrong { Nowhere, $($way,)* }
        pub const WAYS: &[(Wrong, &str)] = &[$((Wrong::$way, $says),)*];
    };
}

ways! {
    BothDeeper: "an arrow overrides only if both ends are strictly deeper",
    TailAndHeadApart: "one arrow wins by its tail, another by its head",
    LevelIsSame: "only the same box is level",
    AllOtherArrows: "a certificate must override arrows of its own sign too",
    HighestCertificate: "the highest certificate is shown",
    DeepestCertificate: "without opposite arrows the deepest is shown",
    UnclearSwapped: "unclear shows its lower arrow first",
    UnclearCertificates: "unclear shows the highest arrows",
    DefaultGranted: "a pair that nothing reaches is granted",
    ShallowClosure: "containment through more than two rows is missed",
    LoopsMissed: "a box never contains itself",
    LoopHighest: "the highest box on a loop is named",
    RootsAreAtoms: "a box in no row is not atomic",
    JudgeModeZero: "judge looks at mode 0 only",
    JudgeByPairs: "judge goes by user and file before mode",
    EntryTakesGroups: "an entry takes groups for users",
    EntryNamesOne: "refusal 11 names only what is wrong",
    ElevenBeforeTen: "11 before 10",
    MatrixCellUnwritten: "the first granted cell is not written",
    MatrixNumbersUnwritten: "default numbers are not written",
    MatrixColumnsFirst: "the matrix goes by file, then user",
    ListOneArrow: "the list holds one arrow only",
    ListInventedCount: "the list's count is that of the mode's arrows",
    ListTwice: "the last arrow of the list stands there twice",
    ListByDepth: "the list is sorted by depth",
    ListSinglePass: "the arrows are tried once only, from the lowest on",
    ListPositiveOnly: "negative arrows are never placed",
    ListTrialValues: "list places beyond the count are touched",
    ListAlwaysWritten: "no order is never said",
    NoOrderTooEager: "no order if any arrow is left out of the list",
    NoOrderFirstGranted: "13 names the first granted pair",
    NoOrderListKept: "13 leaves the list as it was",
    NoOrderListAll: "13 overwrites the list beyond the needed places",
    WorkDirty: "the work bytes are left dirty",
    WorkBeforeTwelve: "the work bytes are set before 12 is known",
    WorkCleanedBeyond: "the work bytes beyond the pairs are cleaned too",
    ScratchOnNine: "scratch is filled before 9 for later buffers",
    ScratchNotOnTen: "scratch is not filled on 10",
    ScratchBeyond: "scratch beyond the needed length is cleaned",
    DrawnNowhere: "scratch holds 0 and 1 only",
    DrawnOnly: "scratch holds 0 and 2 only, nothing for what is joined through others",
    DrawnSpread: "the 2s are marked first and spread to all that is contained",
    DrawnThree: "a pair joined directly and through others is 3",
    DrawnLoses: "a pair joined directly and through others is 1",
    DrawnExchanged: "2 stands at inner and outer box exchanged",
    DrawnFirst: "only the first row of each outer box is marked as drawn",
    DrawnNotLast: "the last row is not marked as drawn",
    DrawnUsers: "only rows between users are marked as drawn",
    DrawnCounted: "each repeat of a row adds 1",
    DrawnTurned: "each repeat of a row turns 2 to 1 or 1 to 2",
    DrawnNotItself: "a row from a box to itself gives 1",
    DrawnLoop: "a longer loop gives 2 on the diagonal",
    DrawnBefore: "a 2 that scratch held before stays where a contains b",
    DrawnBeyond: "the byte beyond the needed length is marked as drawn",
    DrawnNotOnTen: "scratch holds 0 and 1 only after 10",
    DrawnNotOnEleven: "scratch holds 0 and 1 only after 11",
    DrawnNotOnTwelve: "scratch holds 0 and 1 only after 12",
    DrawnNotOnThirteen: "scratch holds 0 and 1 only after 13",
    DrawnNotByJudge: "judge leaves 0 and 1 only in scratch",
    DrawnNotByEntry: "an entry leaves 0 and 1 only in scratch",
    DrawnNotByMatrix: "the matrix leaves 0 and 1 only in scratch",
    DrawnNotByList: "the list leaves 0 and 1 only in scratch",
    ReachByOnes: "reaching takes 2 in scratch for not contained",
    ReachByTwos: "reaching takes 1 in scratch for not contained",
    OrderByOnes: "overriding takes 2 in scratch for not contained",
    OrderByTwos: "overriding takes 1 in scratch for not contained",
    LoopsByOnes: "10 takes 2 in scratch for not contained",
    LoopsByTwos: "10 takes 1 in scratch for not contained",
    EightAfterNine: "8 after 9",
    NineListAllArrows: "the list needs a place for every arrow",
    NineWorkFirst: "buffer 4 before buffer 3",
    TwoBeforeOne: "2 before 1",
    TwoCountsNumbers: "2 names numbers, not rows",
    FiveBeforeFour: "4 and 5 row by row",
    SixSevenByRow: "6 and 7 row by row",
    ModeSevenBad: "mode 7 is refused",
    SameBoxMissed: "an arrow doesn't reach its own atomic ends",
    TailOnly: "only tails are compared",
    DepthCompared: "depths are compared instead of containment",
    LoopsHalfFilled: "containment is not followed beyond a box on a loop",
    TwelveOtherModes: "12 in the list call looks at every mode",
    TwelveByFile: "12 goes by file, then user",
    ListFirstPairOnly: "an arrow may follow if its first new pair fits",
    ListIgnoresReached: "an arrow is blocked by pairs reached before",
    ListHighest: "at each place stands the highest arrow that can follow",
    ListGoesOn: "the next arrow is looked for behind the last one, then from the lowest on",
    ListEndsGranted: "the list ends once every granted pair is reached",
    ListWithoutDenied: "arrows that are the first to reach denied pairs only are taken out of the list",
    ListHighestRepeat: "of repeated arrows the highest number stands in the list",
    ListNothingNew: "arrows that reach nothing new stand in the list too",
    ListByLentWork: "the list depends on what the work bytes held",
    LongArrowNumbers: "arrow numbers are cut to a byte",
    LongMatrix: "pairs beyond place 255 are not written",
    LastArrowMissed: "the 512th arrow is missed",
    LastRowMissed: "the 1,024th containment is missed",
    LastBoxMissed: "the 256th box is refused",
    NineAtExact: "a work buffer of the exact length is too short",
    AtomsExchanged: "atomic users and files are exchanged",
    AtomsGroups: "boxes around others are counted as atomic",
    AtomsWrittenOnRefusal: "atomic users are written before 9 is known for the files",
    AtomsBeyond: "places beyond the atomic files are cleaned",
    AtomsBuffer: "9 names buffer 11 for the atomic files too",
    AtomsLoops: "atoms are refused for a box that contains itself",
    ReadFnvOne: "the check multiplies before it mixes",
    ReadHeadFirst: "16 before 15",
    ReadKindsAnyOrder: "kinds may fall",
    ReadPlaceUnchecked: "the block's number is not checked",
    ReadFillerShort: "the last two filler bytes are not checked",
    ReadFillerLast: "17 after all blocks have passed 15 and 16",
    ReadNineBeforeTwo: "9 before 2",
    ReadBytesForNumbers: "9 counts containments in rows",
    ReadWritesEarly: "boxes are written before 9 is known",
    ReadHighByte: "the high byte of a block's number is not checked",
    ReadCountLow: "the high byte of a count is not read",
    ReadLastBlock: "the 64th block is refused as a 65th would be",
    ReadTooLong: "a file of 65 blocks is read",
    ReadChecksBoxes: "the reader refuses box bytes above 3",
    ReadChecksGroups: "the reader refuses box bytes above 1",
    ReadMasks: "the reader keeps the low two bits of a box byte",
    ReadSides: "the reader writes 0 for user groups and 1 for folders",
    ReadCountsPlain: "the reader's count of boxes leaves out user groups and folders",
    GroupsRefused: "bytes 2 and 3 are refused by 3",
    FoldersRefused: "byte 3 is refused by 3",
    FourPasses: "byte 4 is taken for the user side",
    HighBytesPass: "bytes above 3 count by their low two bits",
    GroupIsFileSide: "a user group is on the file side",
    FolderIsUserSide: "a folder is on the user side",
    FiveByByte: "5 compares bytes, not sides",
    FiveGroupInside: "5 refuses a user group in a box of byte 0, a folder in one of byte 1",
    FiveGroupOuter: "5 passes every row whose outer box is a user group or folder",
    FiveGroupInner: "5 passes every row whose inner box is a user group or folder",
    SixTailByByte: "6 takes byte 0 only for a tail",
    SixHeadByByte: "6 takes byte 1 only for a head",
    SixTailFolder: "6 passes a folder as a tail",
    SixHeadGroup: "6 passes a user group as a head",
    SixAtEmpty: "6 refuses an arrow at an empty group or folder",
    EmptyGroupIsUser: "an empty user group is a user",
    EmptyFolderIsFile: "an empty folder is a file",
    EmptyInsideIsAtom: "an empty group or folder inside another box is atomic",
    EmptyArrowIsAtom: "an empty group or folder with an arrow is atomic",
    MembersAreAtoms: "a group or folder that holds something is atomic",
    AroundEmptyIsAtom: "a box of byte 0 or 1 that holds only empty groups or folders is atomic",
    AroundGroupsIsAtom: "a box of byte 0 or 1 that holds only groups or folders is atomic",
    EmptyInJudge: "judge takes empty groups and folders for atomic",
    EmptyInMatrix: "the matrix takes empty groups and folders for atomic",
    EmptyInList: "the list takes empty groups and folders for atomic",
    EmptyNamed: "empty groups and folders are named among the atomic boxes",
    EntryEmptyGroup: "an entry takes an empty group for a user",
    EntryEmptyFolder: "an entry takes an empty folder for a file",
    NineEmptyBytes: "buffer 1 needs places for empty groups and folders too",
    NineEmptyNumbers: "buffer 2 needs places for empty groups and folders too",
    NineEmptyWork: "buffer 4 needs places for empty groups and folders too",
    NineEmptyUsers: "buffer 11 needs places for empty groups too",
    NineEmptyFiles: "buffer 12 needs places for empty folders too",
    NineListWithoutEmpty: "the list needs no place for arrows at empty groups and folders",
    TenBeforeNine: "10 before 9 for the matrix",
    LoopedGroups: "10 passes a user group or folder that contains itself",
    GroupsReachNothing: "arrows at user groups and folders reach nothing, members or not",
    EmptyUnnumbered: "arrows at empty groups and folders are left out of the numbers",
    GroupsOverrideNothing: "an arrow from a user group overrides none with another tail",
    JoinNotThroughGroups: "containment is not followed through user groups and folders",
    DrawnNotEmpty: "scratch holds 0 for what holds an empty group or folder",
    DrawnNotGroups: "rows of user groups and folders are not marked as drawn",
    PackEmptyRows: "packing: an empty block follows a full one of containments",
    PackEmptyArrows: "packing: an empty block follows a full one of arrows",
    PackEmptyKinds: "packing: a table without rows has an empty block",
    PackNoBoxBlock: "packing: a picture without boxes has no box block",
    PackBoxBlockOne: "packing: the box block of a picture without boxes has count 1",
    PackBoxes128: "packing: a block holds 128 boxes only",
    PackRows124: "packing: a block holds 124 containments only",
    PackArrows82: "packing: a block holds 82 arrows only",
    PackEven: "packing: rows are spread evenly over the blocks of a kind",
    PackPartialFirst: "packing: the first block of a kind is the one that isn't full",
    PackArrowsFirst: "packing: arrow blocks stand before containment blocks",
    PackKind: "packing: arrow blocks say kind 2",
    PackByteOne: "packing: byte 1 of a head is 1",
    PackByteSix: "packing: byte 6 of a head is 1",
    PackNumbersAnew: "packing: block numbers begin anew for each kind",
    PackNumbersFromOne: "packing: block numbers begin with 1",
    PackCountLow: "packing: the high byte of a count is 0",
    PackCountNumbers: "packing: a count is of numbers, not of rows",
    PackBigEndian: "packing: box numbers are big-endian",
    PackBigEndianHead: "packing: block numbers and counts are big-endian",
    PackBigEndianCheck: "packing: checks are big-endian",
    PackOuterInner: "packing: outer and inner box are exchanged",
    PackTailHead: "packing: tail and head are exchanged",
    PackModeSign: "packing: mode and sign are exchanged",
    PackSignTurned: "packing: signs are turned round",
    PackRowsReversed: "packing: containments go from the last to the first",
    PackRowsSorted: "packing: containments are sorted",
    PackArrowsReversed: "packing: arrows go from the last to the first",
    PackArrowsByMode: "packing: arrows go by mode",
    PackRowRepeats: "packing: repeated containments are left out",
    PackArrowRepeats: "packing: repeated arrows are left out",
    PackSelfRows: "packing: rows from a box to itself are left out",
    PackEmptyDropped: "packing: arrows at empty groups and folders are left out",
    PackSides: "packing: user groups and folders are written as 0 and 1",
    PackLastRow: "packing: the 1,024th containment is left out",
    PackLastArrow: "packing: the 512th arrow is left out",
    PackFillerKept: "packing: the filler is not written",
    PackFillerOnes: "packing: the filler is 255",
    PackCheckWithoutFiller: "packing: the check leaves out the filler",
    PackCheckWithoutCount: "packing: the check is made before the count is written",
    PackCheckWithoutHead: "packing: the check leaves out the head",
    PackCheckRunsOn: "packing: the check runs on from block to block",
    PackFnvOne: "packing: the check multiplies before it mixes",
    PackLastBlock: "packing: the last block is lost",
    PackBlocks: "packing: the answer is the number of blocks",
    PackAnswersLent: "packing: the answer is the length that was lent",
    PackAnswersCounts: "packing: the answer names the boxes too",
    PackNineBuffer: "packing: 9 names buffer 5",
    PackNineBlocks: "packing: 9 names the blocks needed, not the bytes",
    PackNineMissing: "packing: 9 names the bytes that are missing",
    PackNineRoom: "packing: 9 asks for the longest packed file",
    PackNineExact: "packing: a file of the exact length is too short",
    PackNineRows: "packing: 9 asks for one block more where all blocks of containments are full",
    PackNineArrows: "packing: 9 asks for one block more where all blocks of arrows are full",
    PackNineFirst: "packing: 9 before 1 to 7",
    PackFillsShort: "packing: a file that is too short is filled as far as it goes",
    PackClearedFirst: "packing: a file that is too short is cleared",
    PackWritesFirst: "packing: the file is written before 1 to 7 are known",
    PackCleared: "packing: the bytes beyond the length are cleared",
    PackBeyond: "packing: the byte beyond the length is cleared",
    PackTen: "packing: a box that contains itself is refused by 10",
    PackTwelve: "packing: an unclear picture is refused by 12",
    PackNotOne: "packing: half a row is left out, not refused",
    PackNotTwo: "packing: tables may have any number of rows",
    PackNotThree: "packing: box bytes above 3 are packed",
    PackNotFour: "packing: containments of boxes that aren't there are packed",
    PackNotFive: "packing: containments across sides are packed",
    PackNotSix: "packing: arrows between wrong sides are packed",
    PackNotSeven: "packing: modes above 7 and signs above 1 are packed",
}

static WRONG: AtomicUsize = AtomicUsize::new(0);

pub fn be(way: Wrong) {
    WRONG.store(way as usize, Relaxed);
}

fn is(way: Wrong) -> bool {
    WRONG.load(Relaxed) == way as usize
}

fn reply(kind: u32, a: usize, b: usize, c: usize) -> Reply {
    Reply {
        kind,
        number: 0,
        a: a as u64,
        b: b as u64,
        c: c as u64,
    }
}

fn refusal(number: u32, a: usize, b: usize, c: usize) -> Reply {
    Reply {
        number,
        ..reply(REFUSED, a, b, c)
    }
}

struct Tables<'a> {
    boxes: &'a [u8],
    rows: &'a [u16],
    arrows: &'a [u16],
}

impl Tables<'_> {
    fn n(&self) -> usize {
        self.boxes.len()
    }

    fn row(&self, k: usize) -> (usize, usize) {
        (self.rows[2 * k] as usize, self.rows[2 * k + 1] as usize)
    }

    /// 0 for the user side, 1 for the file side: the lowest bit of the byte.
    fn side(&self, b: usize) -> u8 {
        match self.boxes[b] {
            2 if is(Wrong::GroupIsFileSide) => 1,
            3 if is(Wrong::FolderIsUserSide) => 0,
            byte => byte & 1,
        }
    }

    /// A user group or a folder: the next bit of the byte.
    fn group(&self, b: usize) -> bool {
        self.boxes[b] & 2 > 0
    }

    /// For each box, whether it is the outer one of a row.
    fn outer(&self) -> Vec<bool> {
        let mut outer = vec![false; self.n()];
        for k in 0..self.rows.len() / 2 {
            outer[self.row(k).0] = true;
        }
        outer
    }

    /// For each box, whether it is a group or folder with nothing in it.
    fn empty(&self) -> Vec<bool> {
        let mut empty = self.outer();
        for (b, outer) in empty.iter_mut().enumerate() {
            *outer = self.group(b) && !*outer;
        }
        empty
    }

    /// Whether an arrow is at an empty group or folder.
    fn at_empty(&self, k: usize) -> bool {
        let empty = self.empty();
        empty[self.tail(k)] || empty[self.head(k)]
    }

    /// The number that is shown for an arrow: its row.
    fn number(&self, k: usize) -> usize {
        if is(Wrong::EmptyUnnumbered) {
            return (0..k).filter(|&m| !self.at_empty(m)).count();
        }
        k
    }

    fn tail(&self, k: usize) -> usize {
        self.arrows[4 * k] as usize
    }

    fn head(&self, k: usize) -> usize {
        self.arrows[4 * k + 1] as usize
    }

    fn positive(&self, k: usize) -> bool {
        self.arrows[4 * k + 3] == 1
    }

    fn of_mode(&self, mode: u16) -> Vec<usize> {
        let all = 0..self.arrows.len() / 4;
        all.filter(|k| self.arrows[4 * k + 2] == mode)
            .filter(|&k| !is(Wrong::LastArrowMissed) || k < 511)
            .collect()
    }

    fn ragged(&self) -> Option<Reply> {
        if self.rows.len() % 2 == 1 {
            Some(refusal(1, 1, self.rows.len(), 0))
        } else if self.arrows.len() % 4 > 0 {
            Some(refusal(1, 2, self.arrows.len(), 0))
        } else {
            None
        }
    }

    fn long(&self) -> Option<Reply> {
        let (rows, arrows) = (self.rows.len() / 2, self.arrows.len() / 4);
        let (more_rows, more_arrows) = if is(Wrong::TwoCountsNumbers) {
            (2, 4)
        } else {
            (1, 1)
        };
        let most = if is(Wrong::LastBoxMissed) { 255 } else { 256 };
        if self.n() > most {
            Some(refusal(2, 0, self.n(), 0))
        } else if rows > 1024 {
            Some(refusal(2, 1, rows * more_rows, 0))
        } else if arrows > 512 {
            Some(refusal(2, 2, arrows * more_arrows, 0))
        } else {
            None
        }
    }

    /// Refusals 1 to 7.
    fn fault(&self) -> Option<Reply> {
        let first = if is(Wrong::TwoBeforeOne) {
            self.long().or(self.ragged())
        } else {
            self.ragged().or(self.long())
        };
        if first.is_some() {
            return first;
        }
        let n = self.n();
        for b in 0..n {
            if self.boxes[b] > highest_byte() {
                return Some(refusal(3, b, 0, 0));
            }
        }
        let mut across = None;
        for k in 0..self.rows.len() / 2 {
            let (outer, inner) = self.row(k);
            if outer >= n || inner >= n {
                return Some(refusal(4, k, 0, 0));
            }
            if across.is_none() && self.across(outer, inner) {
                across = Some(refusal(5, k, 0, 0));
                if is(Wrong::FiveBeforeFour) {
                    return across;
                }
            }
        }
        if across.is_some() {
            return across;
        }
        let mut unknown = None;
        let highest = if is(Wrong::ModeSevenBad) { 6 } else { 7 };
        for k in 0..self.arrows.len() / 4 {
            let (tail, head) = (self.tail(k), self.head(k));
            if tail >= n || head >= n || self.wrong_ends(k) {
                return Some(refusal(6, k, 0, 0));
            }
            let bad = self.arrows[4 * k + 2] > highest || self.arrows[4 * k + 3] > 1;
            if unknown.is_none() && bad {
                unknown = Some(refusal(7, k, 0, 0));
                if is(Wrong::SixSevenByRow) {
                    return unknown;
                }
            }
        }
        unknown
    }

    /// Whether refusal 5 meets a row between these boxes.
    fn across(&self, outer: usize, inner: usize) -> bool {
        let groups = (self.group(outer), self.group(inner));
        if is(Wrong::FiveByByte) {
            return self.boxes[outer] != self.boxes[inner];
        }
        if is(Wrong::FiveGroupInside) && groups == (false, true) {
            return true;
        }
        if is(Wrong::FiveGroupOuter) && groups.0 || is(Wrong::FiveGroupInner) && groups.1 {
            return false;
        }
        self.side(outer) != self.side(inner)
    }

    /// Whether refusal 6 meets an arrow, whose ends are boxes.
    fn wrong_ends(&self, k: usize) -> bool {
        let (tail, head) = (self.tail(k), self.head(k));
        if is(Wrong::SixTailFolder) && self.boxes[tail] == 3 {
            return self.side(head) == 0;
        }
        if is(Wrong::SixHeadGroup) && self.boxes[head] == 2 {
            return self.side(tail) == 1;
        }
        self.side(tail) == 1
            || self.side(head) == 0
            || is(Wrong::SixTailByByte) && self.group(tail)
            || is(Wrong::SixHeadByByte) && self.group(head)
            || is(Wrong::SixAtEmpty) && self.at_empty(k)
    }

    /// The atomic boxes of a side. `with_empty` is the way to be wrong that takes empty groups and
    /// folders for atomic.
    fn atoms(&self, side: u8, with_empty: Wrong) -> Vec<usize> {
        let mut atomic = vec![true; self.n()];
        let mut drawn = vec![false; self.n()];
        let empty = self.empty();
        for k in 0..self.rows.len() / 2 {
            let (outer, inner) = self.row(k);
            let ignored = !self.group(outer)
                && (is(Wrong::AroundEmptyIsAtom) && empty[inner]
                    || is(Wrong::AroundGroupsIsAtom) && self.group(inner));
            atomic[outer] &= ignored;
            drawn[inner] = true;
        }
        if is(Wrong::RootsAreAtoms) {
            atomic = drawn.iter().zip(&atomic).map(|(&d, &a)| d && a).collect();
        }
        for b in (0..self.n()).filter(|&b| self.group(b)) {
            atomic[b] = if empty[b] {
                is(with_empty)
                    || is(Wrong::EmptyGroupIsUser) && self.boxes[b] == 2
                    || is(Wrong::EmptyFolderIsFile) && self.boxes[b] == 3
                    || is(Wrong::EmptyInsideIsAtom) && drawn[b]
                    || is(Wrong::EmptyArrowIsAtom) && self.has_arrow(b)
            } else {
                is(Wrong::MembersAreAtoms)
            };
        }
        (0..self.n())
            .filter(|&b| atomic[b] && self.side(b) == side)
            .collect()
    }

    fn has_arrow(&self, b: usize) -> bool {
        let mut ends = self.arrows.chunks(4).flat_map(|row| &row[..2]);
        ends.any(|&end| end as usize == b)
    }

    /// How many pairs there are.
    fn pairs(&self, with_empty: Wrong) -> usize {
        self.atoms(0, with_empty).len() * self.atoms(1, with_empty).len()
    }

    /// The scratch: containment by Warshall's method, in place and by ones; then 2 for each row.
    fn fill(&self, scratch: &mut [u8]) {
        let n = self.n();
        if is(Wrong::ScratchBeyond) {
            scratch.fill(0);
        }
        if is(Wrong::DrawnBeyond) && scratch.len() > n * n {
            scratch[n * n] = 2;
        }
        let scratch = &mut scratch[..n * n];
        let before = scratch.to_vec();
        scratch.fill(0);
        let first = if is(Wrong::DrawnSpread) { 2 } else { 1 };
        for (outer, inner) in self.all_rows() {
            scratch[outer * n + inner] = first;
        }
        self.join(scratch);
        self.draw(scratch);
        for b in 0..n {
            if is(Wrong::LoopsMissed) {
                scratch[b * n + b] = 0;
            } else if is(Wrong::DrawnLoop) && scratch[b * n + b] == 1 {
                scratch[b * n + b] = 2;
            }
        }
        if is(Wrong::DrawnBefore) {
            for (byte, before) in scratch.iter_mut().zip(before) {
                *byte = if before == 2 && *byte == 1 { 2 } else { *byte };
            }
        }
        if is(Wrong::DrawnNotEmpty) {
            let empty = self.empty();
            for (place, byte) in scratch.iter_mut().enumerate() {
                *byte = if empty[place % n] { 0 } else { *byte };
            }
        }
    }

    /// Outer and inner box of every row.
    fn all_rows(&self) -> Vec<(usize, usize)> {
        let missed = is(Wrong::LastRowMissed) as usize;
        let count = (self.rows.len() / 2).min(1024 - missed);
        (0..count).map(|k| self.row(k)).collect()
    }

    /// From the places of the rows to those of all that is contained.
    fn join(&self, scratch: &mut [u8]) {
        let n = self.n();
        if is(Wrong::ShallowClosure) {
            let rows = self.all_rows();
            for &(a, b) in &rows {
                for &(_, c) in rows.iter().filter(|row| row.0 == b) {
                    scratch[a * n + c] = 1;
                }
            }
            return;
        }
        for via in 0..n {
            if is(Wrong::LoopsHalfFilled) && scratch[via * n + via] == 1
                || is(Wrong::JoinNotThroughGroups) && self.group(via)
            {
                continue;
            }
            for a in 0..n {
                if scratch[a * n + via] > 0 {
                    for b in 0..n {
                        scratch[a * n + b] |= scratch[via * n + b];
                    }
                }
            }
        }
    }

    /// Writes 2 for each row.
    fn draw(&self, scratch: &mut [u8]) {
        let n = self.n();
        let rows = self.all_rows();
        for (k, &(outer, inner)) in rows.iter().enumerate() {
            let place = outer * n + inner;
            let earlier = &rows[..k];
            let through_others = || {
                let mut others = (0..n).filter(|&c| c != outer && c != inner);
                others.any(|c| scratch[outer * n + c] > 0 && scratch[c * n + inner] > 0)
            };
            let unmarked = is(Wrong::DrawnFirst) && earlier.iter().any(|row| row.0 == outer)
                || is(Wrong::DrawnNotLast) && k + 1 == rows.len()
                || is(Wrong::DrawnUsers) && self.side(outer) == 1
                || is(Wrong::DrawnNotGroups) && self.group(outer)
                || is(Wrong::DrawnNotItself) && outer == inner
                || is(Wrong::DrawnLoses) && through_others();
            let repeat = || earlier.contains(&(outer, inner));
            if unmarked {
                continue;
            } else if is(Wrong::DrawnExchanged) {
                scratch[inner * n + outer] = 2;
            } else if is(Wrong::DrawnThree) && through_others() {
                scratch[place] = 3;
            } else if is(Wrong::DrawnCounted) && repeat() {
                scratch[place] = scratch[place].saturating_add(1);
            } else if is(Wrong::DrawnTurned) && repeat() {
                scratch[place] ^= 3;
            } else {
                scratch[place] = 2;
            }
        }
    }

    /// Refusal 10, on a filled scratch.
    fn looped(&self, scratch: &[u8]) -> Option<Reply> {
        let n = self.n();
        let mut on_loop = (0..n)
            .filter(|b| contained(scratch[b * n + b], Wrong::LoopsByOnes, Wrong::LoopsByTwos))
            .filter(|&b| !is(Wrong::LoopedGroups) || !self.group(b));
        let named = if is(Wrong::LoopHighest) {
            on_loop.last()
        } else {
            on_loop.next()
        };
        named.map(|b| refusal(10, b, 0, 0))
    }
}

/// The highest box byte that isn't refused by 3.
fn highest_byte() -> u8 {
    if is(Wrong::GroupsRefused) {
        1
    } else if is(Wrong::FoldersRefused) {
        2
    } else if is(Wrong::FourPasses) {
        4
    } else if is(Wrong::HighBytesPass) {
        255
    } else {
        3
    }
}

/// Whether a byte of the scratch says that a box contains another. `ones` and `twos` are the ways
/// to take only that number for it.
fn contained(byte: u8, ones: Wrong, twos: Wrong) -> bool {
    match byte {
        0 => false,
        1 => !is(twos),
        _ => !is(ones),
    }
}

/// A picture on a filled scratch.
struct World<'a> {
    t: &'a Tables<'a>,
    holds: &'a [u8],
    users: Vec<usize>,
    files: Vec<usize>,
}

impl<'a> World<'a> {
    fn new(t: &'a Tables<'a>, holds: &'a [u8], with_empty: Wrong) -> World<'a> {
        World {
            t,
            holds,
            users: t.atoms(0, with_empty),
            files: t.atoms(1, with_empty),
        }
    }

    /// Whether a box is nested in another, for two boxes around one atom. What overrides what goes
    /// by this alone.
    fn inside(&self, inner: usize, outer: usize) -> bool {
        let byte = self.holds[outer * self.t.n() + inner];
        contained(byte, Wrong::OrderByOnes, Wrong::OrderByTwos)
    }

    fn reaches(&self, k: usize, u: usize, f: usize) -> bool {
        let (tail, head) = (self.t.tail(k), self.t.head(k));
        let holds = |outer: usize, inner: usize| {
            let byte = self.holds[outer * self.t.n() + inner];
            contained(byte, Wrong::ReachByOnes, Wrong::ReachByTwos)
                || outer == inner && !is(Wrong::SameBoxMissed)
        };
        let idle = is(Wrong::GroupsReachNothing) && (self.t.group(tail) || self.t.group(head));
        holds(tail, u) && holds(head, f) && !idle
    }

    /// -1 if a lies inside b, 1 if b lies inside a, 0 if they are level.
    fn order(&self, a: usize, b: usize) -> i32 {
        self.inside(b, a) as i32 - self.inside(a, b) as i32
    }

    fn overrides(&self, p: usize, n: usize) -> bool {
        let tails = self.order(self.t.tail(p), self.t.tail(n));
        let heads = self.order(self.t.head(p), self.t.head(n));
        if is(Wrong::GroupsOverrideNothing)
            && self.t.tail(p) != self.t.tail(n)
            && self.t.group(self.t.tail(p))
        {
            return false;
        }
        if is(Wrong::BothDeeper) {
            return tails < 0 && heads < 0;
        }
        if is(Wrong::TailOnly) {
            return tails < 0;
        }
        if is(Wrong::DepthCompared) {
            let depth = |b: usize| (0..self.t.n()).filter(|&o| self.inside(b, o)).count();
            let sum = |k: usize| depth(self.t.tail(k)) + depth(self.t.head(k));
            return sum(p) > sum(n);
        }
        if is(Wrong::LevelIsSame) {
            let same = self.t.tail(p) == self.t.tail(n) && self.t.head(p) == self.t.head(n);
            return tails <= 0 && heads <= 0 && !same;
        }
        let ends = |k: usize| [self.t.tail(k), self.t.head(k)];
        checker::overrides(|a, b| self.inside(a, b), ends(p), ends(n))
    }

    /// Kind and arrows of the answer for a pair.
    fn cell(&self, of_mode: &[usize], u: usize, f: usize) -> (u32, usize, usize) {
        let reaching = of_mode.iter().copied().filter(|&k| self.reaches(k, u, f));
        let (pos, neg): (Vec<usize>, Vec<usize>) = reaching.partition(|&k| self.t.positive(k));
        if pos.is_empty() && neg.is_empty() {
            let kind = if is(Wrong::DefaultGranted) {
                GRANTED
            } else {
                DENIED_BY_DEFAULT
            };
            return (kind, 0, 0);
        }
        if is(Wrong::TailAndHeadApart) {
            for (kind, own, other) in [(GRANTED, &pos, &neg), (DENIED, &neg, &pos)] {
                let end = |k: usize, column: usize| self.t.arrows[4 * k + column] as usize;
                let by = |column: usize, most: i32| {
                    own.iter().any(|&p| {
                        other
                            .iter()
                            .all(|&n| self.order(end(p, column), end(n, column)) <= most)
                    })
                };
                if by(0, 0) && by(1, 0) && (by(0, -1) || by(1, -1)) {
                    return (kind, own[0], 0);
                }
            }
        }
        // Of two arrows at most one overrides the other, so each comparison strikes one of them.
        let (mut i, mut j) = (0, 0);
        while i < pos.len() && j < neg.len() {
            if self.overrides(pos[i], neg[j]) {
                j += 1;
            } else {
                i += 1;
            }
        }
        let (kind, left, own, other) = if j == neg.len() {
            (GRANTED, &pos[i..], &pos, &neg)
        } else {
            (DENIED, &neg[j..], &neg, &pos)
        };
        let wins = |k: &usize| {
            let others =
                is(Wrong::AllOtherArrows) && own.iter().any(|m| m != k && !self.overrides(*k, *m));
            other.iter().all(|m| self.overrides(*k, *m)) && !others
        };
        let mut winners = left.iter().copied().filter(wins);
        let shown = if is(Wrong::HighestCertificate) {
            winners.last()
        } else if is(Wrong::DeepestCertificate) && other.is_empty() {
            winners.find(|&k| own.iter().all(|&m| !self.overrides(m, k)))
        } else {
            winners.next()
        };
        match shown {
            Some(k) => (kind, k, 0),
            None if pos.is_empty() => (DENIED, neg[0], 0),
            None if neg.is_empty() => (GRANTED, pos[0], 0),
            None if is(Wrong::UnclearSwapped) => (UNCLEAR, pos[0].min(neg[0]), pos[0].max(neg[0])),
            None if is(Wrong::UnclearCertificates) => {
                (UNCLEAR, pos[pos.len() - 1], neg[neg.len() - 1])
            }
            None => (UNCLEAR, pos[0], neg[0]),
        }
    }

    fn unclear(&self, mode: u16) -> Option<(usize, usize)> {
        let of_mode = self.t.of_mode(mode);
        let mut by_file = None;
        for &u in &self.users {
            for &f in &self.files {
                if self.cell(&of_mode, u, f).0 == UNCLEAR {
                    if !is(Wrong::TwelveByFile) {
                        return Some((u, f));
                    }
                    by_file = by_file.min(Some((f, u))).or(Some((f, u)));
                }
            }
        }
        by_file.map(|(f, u)| (u, f))
    }
}

fn judge(t: &Tables, scratch: &mut [u8]) -> Reply {
    if let Some(refused) = t.fault() {
        return refused;
    }
    let needed = t.n() * t.n();
    if scratch.len() < needed {
        return refusal(9, 0, needed, 0);
    }
    t.fill(scratch);
    if let Some(refused) = t.looped(scratch) {
        return refused;
    }
    let world = World::new(t, scratch, Wrong::EmptyInJudge);
    let modes = if is(Wrong::JudgeModeZero) { 1 } else { 8 };
    let mut found: Vec<(usize, (usize, usize))> = Vec::new();
    for mode in 0..modes {
        if let Some(pair) = world.unclear(mode) {
            found.push((mode as usize, pair));
            if !is(Wrong::JudgeByPairs) {
                break;
            }
        }
    }
    match found.into_iter().min_by_key(|(_, pair)| *pair) {
        Some((mode, (u, f))) => refusal(12, mode, u, f),
        None => reply(DONE, 0, 0, 0),
    }
}

fn entry(t: &Tables, user: u16, file: u16, mode: u16, scratch: &mut [u8]) -> Reply {
    if let Some(refused) = t.fault() {
        return refused;
    }
    let needed = t.n() * t.n();
    if is(Wrong::EightAfterNine) && scratch.len() < needed {
        return refusal(9, 0, needed, 0);
    }
    if mode > 7 {
        return refusal(8, mode as usize, 0, 0);
    }
    if scratch.len() < needed {
        return refusal(9, 0, needed, 0);
    }
    t.fill(scratch);
    let (u, f) = (user as usize, file as usize);
    let mut users = t.atoms(0, Wrong::EntryEmptyGroup);
    let files = t.atoms(1, Wrong::EntryEmptyFolder);
    if is(Wrong::EntryTakesGroups) {
        users = (0..t.n()).filter(|&b| t.side(b) == 0).collect();
    }
    let wrong = !users.contains(&u) || !files.contains(&f);
    let named = if is(Wrong::EntryNamesOne) && users.contains(&u) {
        refusal(11, 0, f, 0)
    } else {
        refusal(11, u, f, 0)
    };
    if is(Wrong::ElevenBeforeTen) && wrong {
        return named;
    }
    if let Some(refused) = t.looped(scratch) {
        return refused;
    }
    if wrong {
        return named;
    }
    let world = World::new(t, scratch, Wrong::EntryEmptyGroup);
    let (kind, a, b) = world.cell(&t.of_mode(mode), u, f);
    reply(kind, t.number(a), t.number(b), 0)
}

/// Refusals 8 and 9 of the matrix and list calls; `buffers` are number, length lent, length
/// needed, in the order in which they are tried.
fn mode_and_buffers(mode: u16, buffers: &[(usize, usize, usize)]) -> Option<Reply> {
    let eight = (mode > 7).then(|| refusal(8, mode as usize, 0, 0));
    let nine = buffers
        .iter()
        .find(|(_, lent, needed)| lent < needed)
        .map(|(buffer, _, needed)| refusal(9, *buffer, *needed, 0));
    if is(Wrong::EightAfterNine) {
        nine.or(eight)
    } else {
        eight.or(nine)
    }
}

fn matrix(
    t: &Tables,
    mode: u16,
    scratch: &mut [u8],
    bytes: &mut [u8],
    numbers: &mut [u16],
) -> Reply {
    if let Some(refused) = t.fault() {
        return refused;
    }
    let (needed, pairs) = (t.n() * t.n(), t.pairs(Wrong::EmptyInMatrix));
    let mut buffers = [
        (0, scratch.len(), needed),
        (1, bytes.len(), pairs),
        (2, numbers.len(), pairs),
    ];
    if is(Wrong::NineEmptyBytes) {
        buffers[1].2 = t.pairs(Wrong::NineEmptyBytes);
    }
    if is(Wrong::NineEmptyNumbers) {
        buffers[2].2 = t.pairs(Wrong::NineEmptyNumbers);
    }
    if is(Wrong::TenBeforeNine) && mode < 8 && scratch.len() >= needed {
        let mut filled = vec![0; needed];
        t.fill(&mut filled);
        if let Some(refused) = t.looped(&filled) {
            scratch[..needed].copy_from_slice(&filled);
            return refused;
        }
    }
    if is(Wrong::ScratchOnNine) && mode < 8 && scratch.len() >= needed {
        t.fill(scratch);
    }
    if let Some(refused) = mode_and_buffers(mode, &buffers) {
        return refused;
    }
    let before = scratch.to_vec();
    t.fill(scratch);
    if let Some(refused) = t.looped(scratch) {
        if is(Wrong::ScratchNotOnTen) {
            scratch.copy_from_slice(&before);
        }
        return refused;
    }
    let world = World::new(t, scratch, Wrong::EmptyInMatrix);
    let of_mode = t.of_mode(mode);
    let mut first_granted = true;
    for (i, &u) in world.users.iter().enumerate() {
        for (j, &f) in world.files.iter().enumerate() {
            let place = if is(Wrong::MatrixColumnsFirst) {
                j * world.users.len() + i
            } else {
                i * world.files.len() + j
            };
            let (kind, arrow, _) = world.cell(&of_mode, u, f);
            if kind == GRANTED && is(Wrong::MatrixCellUnwritten) && first_granted {
                first_granted = false;
                continue;
            }
            if is(Wrong::LongMatrix) && place > 255 {
                continue;
            }
            let arrow = if is(Wrong::LongArrowNumbers) {
                arrow % 256
            } else {
                t.number(arrow)
            };
            (bytes[place], numbers[place]) = match kind {
                GRANTED => (1, arrow as u16),
                DENIED => (0, arrow as u16),
                UNCLEAR => (2, 65_535),
                _ if is(Wrong::MatrixNumbersUnwritten) => (0, numbers[place]),
                _ => (0, 65_535),
            };
        }
    }
    reply(DONE, 0, 0, 0)
}

/// Whether an arrow that reaches these places can follow the chosen ones and reaches something new.
/// A work byte is 0 or 1 for denied or granted, and 2 more once reached.
fn can_follow(t: &Tables, k: usize, places: &[usize], work: &[u8], chosen: &[usize]) -> bool {
    let other = !t.positive(k) as u8;
    let fits = if is(Wrong::ListFirstPairOnly) {
        places
            .iter()
            .find(|&&place| work[place] < 2)
            .map(|&place| work[place])
            != Some(other)
    } else if is(Wrong::ListIgnoresReached) {
        places.iter().all(|&place| work[place] % 2 != other)
    } else {
        places.iter().all(|&place| work[place] != other)
    };
    let new = if is(Wrong::ListNothingNew) {
        !chosen.contains(&k)
    } else {
        places.iter().any(|&place| work[place] < 2)
    };
    fits && new
        && (!is(Wrong::ListSinglePass) || chosen.iter().all(|&earlier| earlier <= k))
        && (!is(Wrong::ListPositiveOnly) || t.positive(k))
}

/// The list: again and again the first of the arrows, given with the places they reach, that can
/// follow. Marks the places reached.
fn in_order(t: &Tables, arrows: &[(usize, Vec<usize>)], work: &mut [u8]) -> Vec<usize> {
    let mut chosen = Vec::new();
    let mut behind = 0;
    loop {
        if is(Wrong::ListEndsGranted) && !work.contains(&1) {
            return chosen;
        }
        let from = if is(Wrong::ListGoesOn) { behind } else { 0 };
        let next = (from..arrows.len())
            .chain(0..from)
            .find(|&i| can_follow(t, arrows[i].0, &arrows[i].1, work, &chosen));
        let Some(i) = next else { return chosen };
        chosen.push(arrows[i].0);
        for &place in &arrows[i].1 {
            work[place] |= 2;
        }
        if is(Wrong::ListOneArrow) {
            return chosen;
        }
        behind = i + 1;
    }
}

fn list(t: &Tables, mode: u16, scratch: &mut [u8], list: &mut [u16], work: &mut [u8]) -> Reply {
    if let Some(refused) = t.fault() {
        return refused;
    }
    let (needed, pairs) = (t.n() * t.n(), t.pairs(Wrong::EmptyInList));
    let of_mode = t.of_mode(mode);
    let places = if is(Wrong::NineListAllArrows) {
        t.arrows.len() / 4
    } else if is(Wrong::NineListWithoutEmpty) {
        of_mode.iter().filter(|&&k| !t.at_empty(k)).count()
    } else {
        of_mode.len()
    };
    let mut buffers = [
        (0, scratch.len(), needed),
        (3, list.len(), places),
        (4, work.len(), pairs),
    ];
    if is(Wrong::NineAtExact) && work.len() == pairs {
        buffers[2].1 = 0;
    }
    if is(Wrong::NineEmptyWork) {
        buffers[2].2 = t.pairs(Wrong::NineEmptyWork);
    }
    if is(Wrong::NineWorkFirst) {
        buffers.swap(1, 2);
    }
    if let Some(refused) = mode_and_buffers(mode, &buffers) {
        return refused;
    }
    t.fill(scratch);
    if let Some(refused) = t.looped(scratch) {
        return refused;
    }
    let world = World::new(t, scratch, Wrong::EmptyInList);
    if is(Wrong::WorkBeforeTwelve) {
        work[..pairs].fill(0);
    }
    for other in 0..8 {
        if other == mode || is(Wrong::TwelveOtherModes) {
            if let Some((u, f)) = world.unclear(other) {
                return refusal(12, mode as usize, u, f);
            }
        }
    }
    if is(Wrong::WorkCleanedBeyond) {
        work.fill(0);
    }
    let highest = is(Wrong::ListHighest)
        || is(Wrong::ListByLentWork) && work[..pairs].iter().any(|byte| byte % 2 == 1);
    let at = |place: usize| {
        let columns = world.files.len();
        (world.users[place / columns], world.files[place % columns])
    };
    for place in 0..pairs {
        let (u, f) = at(place);
        work[place] = (world.cell(&of_mode, u, f).0 == GRANTED) as u8;
    }
    let mut reached: Vec<(usize, Vec<usize>)> = of_mode
        .iter()
        .map(|&k| {
            let hit = |place: &usize| world.reaches(k, at(*place).0, at(*place).1);
            (k, (0..pairs).filter(hit).collect())
        })
        .collect();
    if highest {
        reached.reverse();
    }
    let mut chosen = in_order(t, &reached, &mut work[..pairs]);
    let missed = (0..pairs).find(|&place| work[place] == 1);
    let first_granted = (0..pairs).find(|&place| work[place] % 2 == 1);
    if !is(Wrong::WorkDirty) {
        work[..pairs].fill(0);
    }
    if let Some(missed) = missed {
        let named = if is(Wrong::NoOrderFirstGranted) {
            first_granted.unwrap()
        } else {
            missed
        };
        if !is(Wrong::ListAlwaysWritten) && !is(Wrong::ListOneArrow) {
            if is(Wrong::NoOrderListAll) {
                list.fill(65_535);
            } else if !is(Wrong::NoOrderListKept) {
                list[..of_mode.len().min(places)].fill(65_535);
            }
            return refusal(13, mode as usize, at(named).0, at(named).1);
        }
    }
    if is(Wrong::NoOrderTooEager) && chosen.len() < of_mode.len() && first_granted.is_some() {
        let left = of_mode.iter().any(|k| !chosen.contains(k));
        if left {
            list[..of_mode.len()].fill(65_535);
            let (u, f) = at(first_granted.unwrap());
            return refusal(13, mode as usize, u, f);
        }
    }
    if is(Wrong::ListByDepth) {
        chosen = of_mode.clone();
        let depth = |b: usize| (0..t.n()).filter(|&o| world.inside(b, o)).count();
        chosen.sort_by_key(|&k| usize::MAX - depth(t.tail(k)) - depth(t.head(k)));
    }
    if is(Wrong::ListWithoutDenied) {
        chosen.retain(|&k| t.positive(k));
    }
    if is(Wrong::ListHighestRepeat) {
        let row = |k: usize| &t.arrows[4 * k..4 * k + 4];
        for k in &mut chosen {
            *k = *of_mode.iter().rfind(|&&m| row(m) == row(*k)).unwrap();
        }
    }
    if is(Wrong::ListTwice) && chosen.len() < of_mode.len() {
        chosen.extend(chosen.last().copied());
    }
    for (place, &k) in chosen.iter().enumerate() {
        list[place] = k as u16;
    }
    if is(Wrong::ListTrialValues) {
        list[chosen.len()..of_mode.len()].fill(65_535);
    }
    let count = if is(Wrong::ListInventedCount) {
        of_mode.len()
    } else {
        chosen.len()
    };
    reply(DONE, count, 0, 0)
}

fn atoms(t: &Tables, users: &mut [u16], files: &mut [u16]) -> Reply {
    if let Some(refused) = t.fault() {
        return refused;
    }
    let [mut left, mut right] = [0, 1].map(|side| t.atoms(side, Wrong::EmptyNamed));
    if is(Wrong::AtomsExchanged) {
        (left, right) = (right, left);
    }
    if is(Wrong::AtomsGroups) {
        left = (0..t.n()).filter(|&b| t.side(b) == 0).collect();
    }
    if is(Wrong::AtomsLoops) {
        let mut scratch = vec![0; t.n() * t.n()];
        t.fill(&mut scratch);
        if let Some(refused) = t.looped(&scratch) {
            return refused;
        }
    }
    let write = |atoms: &[usize], places: &mut [u16]| {
        for (place, &b) in places.iter_mut().zip(atoms) {
            *place = b as u16;
        }
    };
    let needed = [
        left.len().max(t.atoms(0, Wrong::NineEmptyUsers).len()),
        right.len().max(t.atoms(1, Wrong::NineEmptyFiles).len()),
    ];
    if users.len() < needed[0] {
        return refusal(9, 11, needed[0], 0);
    }
    if is(Wrong::AtomsWrittenOnRefusal) {
        write(&left, users);
    }
    if files.len() < needed[1] {
        let buffer = if is(Wrong::AtomsBuffer) { 11 } else { 12 };
        return refusal(9, buffer, needed[1], 0);
    }
    if is(Wrong::AtomsBeyond) {
        files.fill(0);
    }
    write(&left, users);
    write(&right, files);
    reply(DONE, left.len(), right.len(), 0)
}

fn check_of(bytes: &[u8]) -> u32 {
    bytes.iter().fold(0x811c_9dc5, |check: u32, &byte| {
        if is(Wrong::ReadFnvOne) {
            check.wrapping_mul(0x0100_0193) ^ byte as u32
        } else {
            (check ^ byte as u32).wrapping_mul(0x0100_0193)
        }
    })
}

fn read(file: &[u8], boxes: &mut [u8], rows: &mut [u16], arrows: &mut [u16]) -> Reply {
    let longest = if is(Wrong::ReadTooLong) {
        65
    } else if is(Wrong::ReadLastBlock) {
        63
    } else {
        64
    };
    if file.is_empty() || file.len() % 512 > 0 || file.len() / 512 > longest {
        return refusal(14, file.len(), 0, 0);
    }
    let pair = |at: usize| u16::from_le_bytes([file[at], file[at + 1]]);
    let sizes = [0, 1, 4, 6];
    let mut counts = [0; 4];
    let mut kind = 0;
    let mut filler_fault = None;
    for k in 0..file.len() / 512 {
        let at = 512 * k;
        let stored = pair(at + 508) as u32 | (pair(at + 510) as u32) << 16;
        let damaged = stored != check_of(&file[at..at + 508]);
        let falls = file[at] < kind && !is(Wrong::ReadKindsAnyOrder);
        let low_only = is(Wrong::ReadHighByte) && file[at + 2] as usize == k;
        let moved = pair(at + 2) as usize != k && !low_only && !is(Wrong::ReadPlaceUnchecked);
        let kind_ok = file[at] >= 1 && file[at] <= 3;
        let rest = file[at + 1] | file[at + 6] | file[at + 7];
        let count = if is(Wrong::ReadCountLow) {
            file[at + 4] as usize
        } else {
            pair(at + 4) as usize
        };
        let head =
            !kind_ok || falls || moved || rest != 0 || count > [0, 500, 125, 83][file[at] as usize];
        if is(Wrong::ReadHeadFirst) && head {
            return refusal(16, k, 0, 0);
        }
        if damaged {
            return refusal(15, k, 0, 0);
        }
        if head {
            return refusal(16, k, 0, 0);
        }
        kind = file[at];
        let end = if is(Wrong::ReadFillerShort) { 506 } else { 508 };
        let used = 8 + count * sizes[kind as usize];
        if used < end && file[at + used..at + end].iter().any(|&byte| byte > 0) {
            if !is(Wrong::ReadFillerLast) {
                return refusal(17, k, 0, 0);
            }
            filler_fault = filler_fault.or(Some(refusal(17, k, 0, 0)));
        }
        counts[kind as usize] += count;
    }
    if let Some(refused) = filler_fault {
        return refused;
    }
    let two = [256, 1024, 512]
        .iter()
        .enumerate()
        .find(|(table, limit)| counts[table + 1] > **limit)
        .map(|(table, _)| refusal(2, table, counts[table + 1], 0));
    let row_width = if is(Wrong::ReadBytesForNumbers) { 1 } else { 2 };
    let nine = [
        (5, boxes.len(), counts[1]),
        (6, rows.len(), row_width * counts[2]),
        (7, arrows.len(), 4 * counts[3]),
    ]
    .iter()
    .find(|(_, lent, needed)| lent < needed)
    .map(|(buffer, _, needed)| refusal(9, *buffer, *needed, 0));
    let refused = if is(Wrong::ReadNineBeforeTwo) {
        nine.or(two)
    } else {
        two.or(nine)
    };
    let early = is(Wrong::ReadWritesEarly) && refused.is_some();
    if refused.is_some() && !early {
        return refused.unwrap();
    }
    let (mut b, mut r, mut w) = (0, 0, 0);
    for k in 0..file.len() / 512 {
        let at = 512 * k;
        let count = if is(Wrong::ReadCountLow) {
            file[at + 4] as usize
        } else {
            pair(at + 4) as usize
        };
        for record in 0..count {
            let from = at + 8 + record * sizes[file[at] as usize];
            match file[at] {
                1 => {
                    let byte = file[from];
                    if b < boxes.len() {
                        boxes[b] = match byte {
                            _ if is(Wrong::ReadMasks) => byte & 3,
                            2 | 3 if is(Wrong::ReadSides) => byte & 1,
                            _ => byte,
                        };
                    }
                    if byte > 3 && is(Wrong::ReadChecksBoxes)
                        || byte > 1 && is(Wrong::ReadChecksGroups)
                    {
                        return refusal(3, b, 0, 0);
                    }
                    if is(Wrong::ReadCountsPlain) && (byte == 2 || byte == 3) {
                        counts[1] -= 1;
                    }
                    b += 1;
                }
                2 if !early && r + 1 < rows.len() => {
                    rows[r] = pair(from);
                    rows[r + 1] = pair(from + 2);
                    r += 2;
                }
                3 if !early => {
                    arrows[w] = pair(from);
                    arrows[w + 1] = pair(from + 2);
                    arrows[w + 2] = file[from + 4] as u16;
                    arrows[w + 3] = file[from + 5] as u16;
                    w += 4;
                }
                _ => {}
            }
        }
    }
    refused.unwrap_or(reply(DONE, counts[1], counts[2], counts[3]))
}

/// Takes out of the scratch that a call filled what a wrong library leaves out. `by` is the way to
/// be wrong in this call only.
fn leave(t: &Tables, by: Wrong, scratch: &mut [u8], answer: Reply) -> Reply {
    if (1..=9).contains(&answer.number) {
        return answer;
    }
    let after = match answer.number {
        10 => Wrong::DrawnNotOnTen,
        11 => Wrong::DrawnNotOnEleven,
        12 => Wrong::DrawnNotOnTwelve,
        13 => Wrong::DrawnNotOnThirteen,
        _ => Wrong::DrawnNowhere,
    };
    for byte in &mut scratch[..t.n() * t.n()] {
        if is(Wrong::DrawnNowhere) || is(after) || is(by) {
            *byte = (*byte).min(1);
        } else if is(Wrong::DrawnOnly) && *byte == 1 {
            *byte = 0;
        }
    }
    answer
}

// The boundary. SAFETY of all: the caller lends every pointer with its true length.

#[no_mangle]
pub extern "C" fn rights_version() -> u32 {
    0x04_00_00
}

#[no_mangle]
pub unsafe extern "C" fn rights_judge(
    boxes: *const u8,
    boxes_len: usize,
    rows: *const u16,
    rows_len: usize,
    arrows: *const u16,
    arrows_len: usize,
    scratch: *mut u8,
    scratch_len: usize,
) -> Reply {
    let t = Tables {
        boxes: from_raw_parts(boxes, boxes_len),
        rows: from_raw_parts(rows, rows_len),
        arrows: from_raw_parts(arrows, arrows_len),
    };
    let scratch = from_raw_parts_mut(scratch, scratch_len);
    let answer = judge(&t, scratch);
    leave(&t, Wrong::DrawnNotByJudge, scratch, answer)
}

#[no_mangle]
pub unsafe extern "C" fn rights_entry(
    boxes: *const u8,
    boxes_len: usize,
    rows: *const u16,
    rows_len: usize,
    arrows: *const u16,
    arrows_len: usize,
    user: u16,
    file: u16,
    mode: u16,
    scratch: *mut u8,
    scratch_len: usize,
) -> Reply {
    let t = Tables {
        boxes: from_raw_parts(boxes, boxes_len),
        rows: from_raw_parts(rows, rows_len),
        arrows: from_raw_parts(arrows, arrows_len),
    };
    let scratch = from_raw_parts_mut(scratch, scratch_len);
    let answer = entry(&t, user, file, mode, scratch);
    leave(&t, Wrong::DrawnNotByEntry, scratch, answer)
}

#[no_mangle]
pub unsafe extern "C" fn rights_matrix(
    boxes: *const u8,
    boxes_len: usize,
    rows: *const u16,
    rows_len: usize,
    arrows: *const u16,
    arrows_len: usize,
    mode: u16,
    scratch: *mut u8,
    scratch_len: usize,
    bytes: *mut u8,
    bytes_len: usize,
    numbers: *mut u16,
    numbers_len: usize,
) -> Reply {
    let t = Tables {
        boxes: from_raw_parts(boxes, boxes_len),
        rows: from_raw_parts(rows, rows_len),
        arrows: from_raw_parts(arrows, arrows_len),
    };
    let scratch = from_raw_parts_mut(scratch, scratch_len);
    let bytes = from_raw_parts_mut(bytes, bytes_len);
    let numbers = from_raw_parts_mut(numbers, numbers_len);
    let answer = matrix(&t, mode, scratch, bytes, numbers);
    leave(&t, Wrong::DrawnNotByMatrix, scratch, answer)
}

#[no_mangle]
pub unsafe extern "C" fn rights_list(
    boxes: *const u8,
    boxes_len: usize,
    rows: *const u16,
    rows_len: usize,
    arrows: *const u16,
    arrows_len: usize,
    mode: u16,
    scratch: *mut u8,
    scratch_len: usize,
    list_places: *mut u16,
    list_len: usize,
    work: *mut u8,
    work_len: usize,
) -> Reply {
    let t = Tables {
        boxes: from_raw_parts(boxes, boxes_len),
        rows: from_raw_parts(rows, rows_len),
        arrows: from_raw_parts(arrows, arrows_len),
    };
    let scratch = from_raw_parts_mut(scratch, scratch_len);
    let places = from_raw_parts_mut(list_places, list_len);
    let work = from_raw_parts_mut(work, work_len);
    let answer = list(&t, mode, scratch, places, work);
    leave(&t, Wrong::DrawnNotByList, scratch, answer)
}

#[no_mangle]
pub unsafe extern "C" fn rights_atoms(
    boxes: *const u8,
    boxes_len: usize,
    rows: *const u16,
    rows_len: usize,
    users: *mut u16,
    users_len: usize,
    files: *mut u16,
    files_len: usize,
) -> Reply {
    let t = Tables {
        boxes: from_raw_parts(boxes, boxes_len),
        rows: from_raw_parts(rows, rows_len),
        arrows: &[],
    };
    atoms(
        &t,
        from_raw_parts_mut(users, users_len),
        from_raw_parts_mut(files, files_len),
    )
}

#[no_mangle]
pub unsafe extern "C" fn rights_read(
    file: *const u8,
    file_len: usize,
    boxes: *mut u8,
    boxes_len: usize,
    rows: *mut u16,
    rows_len: usize,
    arrows: *mut u16,
    arrows_len: usize,
) -> Reply {
    read(
        from_raw_parts(file, file_len),
        from_raw_parts_mut(boxes, boxes_len),
        from_raw_parts_mut(rows, rows_len),
        from_raw_parts_mut(arrows, arrows_len),
    )
}

#[no_mangle]
pub unsafe extern "C" fn rights_pack(
    boxes: *const u8,
    boxes_len: usize,
    rows: *const u16,
    rows_len: usize,
    arrows: *const u16,
    arrows_len: usize,
    file: *mut u8,
    file_len: usize,
) -> Reply {
    let t = Tables {
        boxes: from_raw_parts(boxes, boxes_len),
        rows: from_raw_parts(rows, rows_len),
        arrows: from_raw_parts(arrows, arrows_len),
    };
    packing::pack(&t, from_raw_parts_mut(file, file_len))
}
