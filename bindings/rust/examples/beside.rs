//! Two heaps side by side: a talking statement's texts as they were yesterday, and today. Overnight the block of the
//! word "owed" was given back and went out again, with the payee's name in it; a text has moved to a larger block, and
//! others came and went. The desk compares the two heaps, and says what has become of each text that is not as it was.
//!
//! cargo run --manifest-path bindings/rust/Cargo.toml --example beside

use heskavern::{list_words, Block, Difference, Edition, Kind, OwnedHeap, Reader, Refusal, CHANGES};

/// Writes a text and the zero that ends it to a block.
fn put(heap: &mut OwnedHeap, block: &Block, text: &str) -> Result<(), Refusal> {
    heap.write(block, format!("{text}\0").as_bytes())?;
    println!("\"{text}\" is at {}", block.offset());
    Ok(())
}

/// Keeps a text in a block that is asked for it, and answers the block.
fn keep(heap: &mut OwnedHeap, text: &str) -> Result<Block, Refusal> {
    let block = heap.ask(text.len() + 1)?;
    put(heap, &block, text)?;
    Ok(block)
}

/// The text in a block, up to the zero that ends it.
fn text_of(block: &[u8]) -> String {
    let end = block.iter().position(|&byte| byte == 0).unwrap_or(block.len());
    String::from_utf8_lossy(&block[..end]).to_string()
}

/// Says how an offset differs, with the text there before and after, where it is live.
fn tell(yesterday: Reader, today: Reader, Difference { offset, kind }: Difference) {
    let (before, after) = (yesterday.stand_in(offset, b""), today.stand_in(offset, b""));
    let (was, is) = (text_of(before), text_of(after));
    let (old, new) = (before.len(), after.len());
    match kind {
        Kind::FirstAlone => println!("{offset}: no longer live, it was \"{was}\""),
        Kind::SecondAlone => println!("{offset}: newly live, it is \"{is}\""),
        Kind::OtherSize => println!("{offset}: {kind}, it was \"{was}\" in {old} bytes and is \"{is}\" in {new}"),
        _ => println!("{offset}: {kind}, it was \"{was}\" and is \"{is}\""),
    }
}

fn main() -> Result<(), Refusal> {
    let mut heap = OwnedHeap::new(1, 4, Edition::Eight)?;
    println!("yesterday:");
    let owed = keep(&mut heap, "owed")?;
    let _paid = keep(&mut heap, "paid")?;
    let mut rent = keep(&mut heap, "rent for May")?;
    let note = keep(&mut heap, "please call your branch by Friday")?;
    let copy = heap.clone();

    println!("today:");
    heap.give_back(owed)?;
    let _payee = keep(&mut heap, "A. Moss")?;
    heap.give_back(note)?;
    heap.resize(&mut rent, 22)?;
    put(&mut heap, &rent, "rent for May and June")?;
    let (_fee, _amount) = (keep(&mut heap, "fee")?, keep(&mut heap, "12.50")?);

    println!("side by side:");
    let (yesterday, today) = (copy.reader(), heap.reader());
    let (mut list, mut changes) = ([0; list_words(1, 4)], [0; CHANGES]);
    let compared = yesterday.compare(today, &mut list, &mut changes)?;
    for difference in compared.differences() {
        tell(yesterday, today, difference);
    }
    for (class, change) in compared.changes().iter().enumerate().filter(|(_, &change)| change != 0) {
        println!("blocks of {} bytes: {change:+}", 8 * (class + 1));
    }
    let sum: i32 = compared.changes().iter().sum();
    let (before, after) = (yesterday.live(), today.live());
    println!("the changes add up to {sum:+}: by roll call {before} were live, and {after} are");
    Ok(())
}
