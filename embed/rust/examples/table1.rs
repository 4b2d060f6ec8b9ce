// Table 1 of Franklin and Sohi's paper: two loads go ahead of an older store, which squashes them when it executes. Issued again
// they take the words stored; the late execution of a load that is dead meets the number of who holds its stage now.
use arb::{Buffer, Outcome, Refusal, Ticket};

fn tell(answer: Result<Outcome<Ticket>, Refusal>) {
    match answer {
        Err(why) => println!("refused with {}, {why}", why as u32),
        Ok(Outcome { value, distance, squashed_from: None }) => {
            println!("value {value}, distance {distance}")
        }
        Ok(Outcome { value, distance, squashed_from: Some(Ticket { stage, number }) }) => {
            println!(
                "value {value}, distance {distance}, squashed from stage {stage}, issue number {number} on"
            )
        }
    }
}

fn load(b: &mut Buffer, at: Ticket, address: u32, memory: &[u32]) -> u32 {
    print!("load {address}: ");
    let answer = b.load(at, address, memory);
    tell(answer);
    if let (Err(Refusal::NotLive), Some(holder)) = (answer, b.holder(at.stage)) {
        println!("issue number {} is gone: stage {} is held by {}", at.number, at.stage, holder.number);
    }
    answer.map_or(0, |out| out.value)
}

fn store(b: &mut Buffer, at: Ticket, address: u32, value: u32, memory: &[u32]) {
    print!("store {value} at {address}: ");
    tell(b.store(at, address, value, memory));
}

fn main() -> Result<(), Refusal> {
    let memory = &mut [0; 200];
    memory[100] = 140;
    let b = &mut Buffer::open(1, 4, 4, memory)?;
    let (first, second, third, fourth) = (b.issue()?, b.issue()?, b.issue()?, b.issue()?);
    let address = load(b, third, 100, memory);
    store(b, second, 120, 50, memory);
    load(b, fourth, address, memory);
    store(b, first, 100, 120, memory);
    b.commit(memory)?;
    b.commit(memory)?;
    let (again, next) = (b.issue()?, b.issue()?);
    load(b, third, 100, memory);
    let address = load(b, again, 100, memory);
    load(b, next, address, memory);
    Ok(())
}
