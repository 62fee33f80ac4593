//! A program with generic, inlined and forgotten allocations.

use std::collections::HashMap;

struct Shelf<T> {
    books: Vec<Box<T>>,
}

impl<T: Clone> Shelf<T> {
    fn add(&mut self, book: &T) {
        self.books.push(Box::new(book.clone()));
    }
}

#[inline(never)]
fn forget(bytes: usize) {
    std::mem::forget(vec![1u8; bytes]);
}

#[inline(never)]
fn counted(words: &[&str]) -> HashMap<String, usize> {
    let mut found = HashMap::new();
    for word in words {
        *found.entry(word.to_string()).or_insert(0) += 1;
    }
    found
}

fn main() {
    let mut shelf = Shelf { books: Vec::new() };
    for number in 0..20 {
        shelf.add(&format!("volume {number} of a long row"));
    }
    for number in 1..9 {
        forget(100 * number);
    }
    let lines: Vec<String> = (0..10).map(|number| format!("line {number}")).collect();
    println!("{} {} {}", shelf.books.len(), counted(&["a", "b", "a"]).len(), lines.join(";").len());
}
