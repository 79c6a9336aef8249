// What is done to the bytes of any text.
use crate::random::Random;

// A byte that is put into a text of some kind.
type AnyByte = fn(&mut Random) -> u8;

pub fn byte_changed(random: &mut Random, mut text: Vec<u8>, any_byte: AnyByte) -> Vec<u8> {
    if !text.is_empty() {
        let place = random.below(text.len());
        text[place] = any_byte(random);
    }
    text
}

pub fn byte_removed(random: &mut Random, mut text: Vec<u8>) -> Vec<u8> {
    if !text.is_empty() {
        text.remove(random.below(text.len()));
    }
    text
}

pub fn byte_put_in(random: &mut Random, mut text: Vec<u8>, any_byte: AnyByte) -> Vec<u8> {
    text.insert(random.between(0, text.len()), any_byte(random));
    text
}

pub fn cut_short(random: &mut Random, mut text: Vec<u8>) -> Vec<u8> {
    if !text.is_empty() {
        text.truncate(random.below(text.len()));
    }
    text
}

// Bytes in place of the text, fewer or a few more.
pub fn other_bytes(random: &mut Random, text: Vec<u8>, any_byte: AnyByte) -> Vec<u8> {
    (0..random.below(text.len() + 20)).map(|_| any_byte(random)).collect()
}
