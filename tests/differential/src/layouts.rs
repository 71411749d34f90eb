//! The constants, and the structs as Rust lays them out.

use ozpinduru::raw::{self, BOOK_BYTES, PAGE_BYTES, REPORT_BYTES, ROWS, STEPS, WORDS_BYTES};

/// A line for the constants; then one for each struct: its name in the header, its size and its alignment; then its fields, each with its offset.
pub fn print() {
    print!("constants {} {} {} {} {}", raw::GIVEN, raw::NONE, raw::REFUSED, raw::MISSING, raw::DIFFERS);
    print!(" {BOOK_BYTES} {ROWS} {STEPS} {REPORT_BYTES} {WORDS_BYTES} {PAGE_BYTES}");
    println!(" {} {}", raw::NO_VALUE, raw::NO_AMOUNT);
    for (name, size, align, fields) in ozpinduru::raw::layouts() {
        let fields: Vec<String> = fields.iter().map(|(field, offset)| format!(" {field} {offset}")).collect();
        println!("ozp_{} {size} {align}{}", snake(name), fields.concat());
    }
}

fn snake(name: &str) -> String {
    let mut words = String::new();
    for letter in name.chars() {
        if letter.is_uppercase() && !words.is_empty() {
            words.push('_');
        }
        words.extend(letter.to_lowercase());
    }
    words
}
