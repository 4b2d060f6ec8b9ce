// The script sample.arb by calls of the machine: a load goes ahead of the store whose word it wants, is squashed, and is issued
// again. Prints what the script program prints of it.
use arb::{Machine, Refusal};

const PROGRAM: [u32; 12] = [1, 1, 0, 5, 4, 1, 0, 3, 3, 2, 0, 3];

fn commit(m: &mut Machine, memory: &mut [u32]) -> Result<(), Refusal> {
    let did = m.commit(&PROGRAM, memory)?;
    if did.code == 3 {
        println!("f,{},{}", did.index, did.distance);
    }
    let letter = b"?APLSBH"[did.code as usize] as char;
    println!("{},{letter},{},{}", did.index, did.target, did.value);
    Ok(())
}

fn main() -> Result<(), Refusal> {
    let memory = &mut [0; 8];
    let m = &mut Machine::open(1, 2, 4, &PROGRAM, memory)?;
    let mut commits = 0;
    // i issues, a digit executes that position, c commits
    for what in "iii201cci0c".chars() {
        match what {
            'i' => m.issue(&PROGRAM).map(|_| ())?,
            'c' => {
                commit(m, memory)?;
                commits += 1;
            }
            _ => m.execute(&PROGRAM, what as usize - '0' as usize, memory).map(|_| ())?,
        }
    }
    for (a, word) in memory.iter().enumerate().filter(|(_, word)| **word != 0) {
        println!("m,{a},{word}");
    }
    let done = m.state().table.live == 0 && m.state().next == m.state().count;
    println!("end,{},{commits}", if done { "done" } else { "open" });
    Ok(())
}
