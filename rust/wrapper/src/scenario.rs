use crate::{Refusal, raw};

/// An entry of a scenario that posts a matrix.
pub const POST: u32 = 0;

/// An entry of a scenario that plans a frame and sends it.
pub const FRAME: u32 = 1;

/// How many bytes [`play_scenario`] must be lent for its text.
pub const TEXT_BYTES: usize = 516_096;

/// Writes a scenario, that is a run kept as one file, to the front of `file` and gives its length.
/// The bytes behind it stay as they were.
///
/// `kinds` has an entry of the run in each cell, [`POST`] or [`FRAME`], in the order in which they
/// are played: at most 4,096. `cells` has the N×N arrivals of the first post, then those of the
/// next, and so on; further cells are not read.
///
/// The file begins with a table of numbers of four bytes: N, L, B, the rule, the number of entries,
/// then two numbers for each entry, its kind and the place of its matrix, counted in bytes from the
/// file's start, 0 for a frame. The matrices of the posts follow, row by row, two bytes for a cell,
/// each where the one before ends. Of each number the lowest byte comes first. So the length is
/// 20 + 8 × entries + 2 × N×N × posts. [`play_scenario`] takes no more than 65,536 bytes; a longer
/// file can be written all the same.
///
/// Refused by [`Refusal::Nodes`], [`Refusal::Slots`], [`Refusal::Rule`], [`Refusal::DemandShort`]
/// for fewer than N×N cells for each post, [`Refusal::TableShort`] for a `file` shorter than the
/// length, [`Refusal::DemandAbove`] of the first such cell, counted on from post to post,
/// [`Refusal::QueueLimit`], and [`Refusal::BadFile`] of entry 0 for more than 4,096 entries, or of
/// the first entry that is neither a post nor a frame; then nothing is written.
///
/// ```
/// use gyodaebeun::{FRAME, POST, TEXT_BYTES, play_scenario, write_scenario};
///
/// let mut file = [0; 56];
/// let kinds = [POST, FRAME, POST, FRAME];
/// let length = write_scenario(1, 4, 6, 1, &kinds, &[10, 3], &mut file)?;
/// assert_eq!(length, 56);
///
/// let mut text = vec![0; TEXT_BYTES];
/// let length = play_scenario(&file, &mut text)?;
/// assert_eq!(&text[..length], b"0 0 13 8 4 1\n");
/// # Ok::<(), gyodaebeun::Refusal>(())
/// ```
pub fn write_scenario(
    nodes: u32,
    slots: u32,
    limit: u32,
    rule: u32,
    kinds: &[u32],
    cells: &[u32],
    file: &mut [u8],
) -> Result<usize, Refusal> {
    let mut report = [0; 2];
    let number = raw::write_scenario(nodes, slots, limit, rule, kinds, cells, file, &mut report);
    length(number, report)
}

/// Plays a scenario as [`write_scenario`] writes it, and gives the length of the text that it puts
/// at the front of `text`. The bytes behind that stay as they were.
///
/// The run begins with a fresh start; then each entry is a post of its matrix or a frame. The text
/// has a line for each pair with anything posted, in row order: its source, destination, and what
/// of it was posted, sent, dropped and is waiting at the end, parted by one space. A file without
/// posts has no lines. Where several plans are right the library chooses one; so under the least
/// rule what was sent, dropped and is waiting may differ from what another player prints.
///
/// A matrix may stand anywhere between the table and the end of the file; posts may share one, or
/// parts of one, and bytes of no matrix are not looked at.
///
/// Bytes that are no scenario are not refused: the text says so. It is `bad input` for more than
/// 65,536 bytes. Otherwise, before anything is played, it is `refused` with the number and the place
/// of the first check that fires, as `refused 10 0`: 1 to 3 or 7, as [`Refusal`] has them, for what
/// the table holds; 10 with place 0 for a table that is cut short or has more than 4,096 entries; 10
/// with the first entry, counted from 0, that is neither a post nor a frame, that is a frame with a
/// place other than 0, or whose matrix does not lie wholly between the table and the end of the
/// file. Every line ends with a line feed.
///
/// Refused by [`Refusal::TableShort`], exactly if `text` has fewer than [`TEXT_BYTES`] bytes; then
/// nothing is written. This call needs 220 KiB of stack.
pub fn play_scenario(file: &[u8], text: &mut [u8]) -> Result<usize, Refusal> {
    let mut report = [0; 2];
    let number = raw::play_scenario(file, text, &mut report);
    length(number, report)
}

/// The answer of a call that returned this number and stored this report.
fn length(number: u32, report: [u32; 2]) -> Result<usize, Refusal> {
    let [place, length] = report;
    Refusal::given(number, place).map(|()| length as usize)
}
