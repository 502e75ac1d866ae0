use std::io::Read;
use std::process::exit;

fn main() -> std::io::Result<()> {
    let mut file = Vec::new();
    std::io::stdin().read_to_end(&mut file)?;
    let answer = wrapper::judge(&file);
    println!("{answer}");
    exit(if answer.is_accepted() { 0 } else { 1 })
}
