//! Prints what the programs of files come to.
fn main() {
    for file in std::env::args().skip(1) {
        let text = std::fs::read(&file).expect("the file can be read");
        match goi::tell(&text, goi::BUDGET, false) {
            Ok(answer) => println!("{file}: {:?} after {} moves", answer.value, answer.moves),
            Err(error) => println!("{file}: {error}"),
        }
    }
}
