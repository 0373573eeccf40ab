//! The loop of the peers in Rust: a line in, a line out.

use std::io::{self, BufRead, Write};

pub fn hex(bytes: &[u8]) -> String {
    bytes.iter().map(|it| format!("{it:02x}")).collect()
}

/// `answer` gives what comes after `ok`, or after `refused`, for a subject and a line: for `writing` from the line
/// itself, for all else from the bytes that it tells in hexadecimal.
pub fn serve(answer: impl Fn(&str, &[u8]) -> Result<String, String>) -> io::Result<()> {
    let subject = std::env::args()
        .nth(1)
        .unwrap_or_else(|| "blocks".to_string());
    for line in io::stdin().lock().lines() {
        let line = line?;
        let digits = |at: usize| u8::from_str_radix(&line[at..at + 2], 16).unwrap();
        let answered = match subject.as_str() {
            "writing" => answer(&subject, line.as_bytes()),
            _ => answer(
                &subject,
                &(0..line.len() / 2)
                    .map(|it| digits(2 * it))
                    .collect::<Vec<u8>>(),
            ),
        };
        match answered {
            Ok(words) => println!("ok {words}"),
            Err(words) => println!("refused {words}"),
        }
        io::stdout().flush()?;
    }
    Ok(())
}
