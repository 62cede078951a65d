//! A talking statement keeps each text in a block, and asks for the blocks of a row of texts in one call. The block of
//! the word "owed" is given back twice: the second time is refused with 10, a dead block, and while the block is not
//! out a stand-in is spoken for it. Then an empty text is refused with 3, which does not stop the rest of its row: the
//! payee's name gets a block of its own. The roll call says what every block that is out holds, and the audit that all
//! is in order.
//!
//! cargo run --manifest-path bindings/rust/Cargo.toml --example statement

use heskavern::{Block, Edition, OwnedHeap, Reader, Refusal};

/// Keeps a row of texts, each in a block of its own; all are asked for in one call, and each that is served is written.
/// Answers the blocks of those.
fn keep<const N: usize>(heap: &mut OwnedHeap, texts: [&str; N]) -> Result<Vec<Block>, Refusal> {
    let mut kept = Vec::new();
    for (text, answer) in texts.iter().zip(heap.ask_all(&texts.map(|text| text.len() as u32))?) {
        match answer {
            Ok(block) => {
                heap.write(&block, text.as_bytes())?;
                println!("keep \"{text}\" at {}", block.offset());
                kept.push(block);
            }
            Err(refusal) => println!("keep \"{text}\": number {}", refusal.number()),
        }
    }
    Ok(kept)
}

/// Says what a give-back answered.
fn given_back(offset: u32, answer: Result<(), Refusal>) {
    println!("give back {offset}: number {}", answer.map_or_else(Refusal::number, |()| 0));
}

/// The text in a block, up to the zeros that fill it.
fn text_of(block: &[u8]) -> String {
    String::from_utf8_lossy(block).trim_end_matches('\0').to_string()
}

/// Speaks the text at an offset, or for one that is not live the stand-in, never what was once there.
fn speak(heap: Reader, offset: u32) {
    println!("speak {offset}: \"{}\"", text_of(heap.stand_in(offset, b"this amount can't be read out")));
}

fn main() -> Result<(), Refusal> {
    let mut heap = OwnedHeap::new(1, 2, Edition::Eight)?;

    // A handle cannot be given back twice: that does not compile. What goes stale is an offset that a routine has kept.
    let owed = keep(&mut heap, ["owed", "paid"])?.swap_remove(0);
    let offset = owed.offset();
    speak(heap.reader(), offset);
    given_back(offset, heap.give_back(owed).map_err(Refusal::from));
    speak(heap.reader(), offset);
    given_back(offset, heap.lend().give_back(offset));
    keep(&mut heap, ["owed", "", "A. Moss"])?;

    for (offset, size) in heap.reader().roll() {
        println!("roll call: {offset}, {size} bytes, \"{}\"", text_of(heap.reader().view(offset)?));
    }
    println!("audit: {}", heap.audit());
    Ok(())
}
