//! A user's program in Rust, over whatever archive its crate has found.
use heskavern::{Edition, OwnedHeap, Refusal};

fn main() -> Result<(), Refusal> {
    let mut heap = OwnedHeap::new(1, 16, Edition::Eight)?;
    let owed = heap.ask(4)?;
    heap.write(&owed, b"owed")?;
    println!("{}: owed at {}, {} block is live", heskavern::VERSION, owed.offset(), heap.live());
    Ok(())
}
