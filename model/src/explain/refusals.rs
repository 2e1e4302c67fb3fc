//! The refusals of documents 01 and 02 in words.

const WORDS: [&str; 19] = [
    "the block is too short or damaged, or no fresh start was accepted yet",
    "sizes outside 1 to 8 clients, 1 to 8 partitions and 1 to 64 items",
    "no such client",
    "the client, or of a hand-over either, isn't idle",
    "the set is empty or holds an item that doesn't exist",
    "not as many values as items",
    "the client's count or a number in its view is the greatest, 4,294,967,295",
    "the load would be over 128",
    "stored versions and prepares in flight would be over 512; a clearing may free places",
    "no message lies at that place",
    "the version is already stored, or the reply isn't awaited",
    "the version asked for isn't stored",
    "no transaction of the client has ended",
    "the output is shorter than the frame",
    "malformed",
    "over 32,768 bytes or over 256 line ends",
    "a write of more than 12 items",
    "a hand-over of a client to itself",
    "the block is in range, but not one that the calls make",
];

/// The sentence of a refusal's number, if it is one.
pub fn refused(number: u8) -> Option<String> {
    let words = WORDS.get(usize::from(number).checked_sub(1)?)?;
    Some(format!("refused by {number}: {words}"))
}
