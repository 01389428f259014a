//! Reads and writes sets as strings of JSON by `serde_json`, and times it: Rust's side of `bench/json/run`, which says
//! what the lines are, and writes the module `elements`: the enums, and the bits of each word that are variants.
//!
//! Sets go through serde as the derive of Rust's crate `enumset` has them do under each `serialize_repr`.

mod elements;

use elements::{Right, Setting, VALID};
use serde::de::{DeserializeOwned, MapAccess, SeqAccess, Visitor};
use serde::ser::{SerializeMap, SerializeSeq};
use serde::{Deserialize, Deserializer, Serialize, Serializer};
use std::error::Error;
use std::fmt::{self, Formatter};
use std::io::{self, BufRead, Write};
use std::marker::PhantomData;
use std::time::Instant;

/// How many times a round goes through the strings of a line.
const PASSES: u128 = 20;

/// How many rounds the least time is taken of.
const ROUNDS: usize = 10;

/// An element type, whose sets are kept in an integer.
trait Element: Copy + Serialize + DeserializeOwned {
    type Bits: Copy + Default;

    fn count(bits: Self::Bits) -> usize;

    fn insert(self, bits: &mut Self::Bits);

    /// Takes the first element out of a set.
    fn take(bits: &mut Self::Bits) -> Option<Self>;
}

macro_rules! element {
    ($element:ident, $bits:ident) => {
        impl Element for $element {
            type Bits = $bits;

            fn count(bits: $bits) -> usize {
                bits.count_ones() as usize
            }

            fn insert(self, bits: &mut $bits) {
                *bits |= 1 << self as u32;
            }

            fn take(bits: &mut $bits) -> Option<Self> {
                if *bits == 0 {
                    return None;
                }
                let bit = bits.trailing_zeros() as u8;
                *bits &= *bits - 1;
                // SAFETY: the enum is `repr(u8)`, and each bit of a set was inserted as that of a variant.
                Some(unsafe { std::mem::transmute::<u8, $element>(bit) })
            }
        }
    };
}

element!(Right, u32);
element!(Setting, u128);

/// A set that is a list of names in JSON.
struct List<T: Element>(T::Bits);

impl<T: Element> Serialize for List<T> {
    fn serialize<S: Serializer>(&self, serializer: S) -> Result<S::Ok, S::Error> {
        let mut bits = self.0;
        let mut list = serializer.serialize_seq(Some(T::count(bits)))?;
        while let Some(element) = T::take(&mut bits) {
            list.serialize_element(&element)?;
        }
        list.end()
    }
}

impl<'de, T: Element> Deserialize<'de> for List<T> {
    fn deserialize<D: Deserializer<'de>>(deserializer: D) -> Result<Self, D::Error> {
        deserializer.deserialize_seq(ListVisitor(PhantomData))
    }
}

struct ListVisitor<T>(PhantomData<T>);

impl<'de, T: Element> Visitor<'de> for ListVisitor<T> {
    type Value = List<T>;

    fn expecting(&self, formatter: &mut Formatter) -> fmt::Result {
        formatter.write_str("a list of names")
    }

    fn visit_seq<A: SeqAccess<'de>>(self, mut list: A) -> Result<List<T>, A::Error> {
        let mut bits = T::Bits::default();
        while let Some(element) = list.next_element::<T>()? {
            element.insert(&mut bits);
        }
        Ok(List(bits))
    }
}

/// A set that is a map of names to booleans in JSON.
struct Map<T: Element>(T::Bits);

impl<T: Element> Serialize for Map<T> {
    fn serialize<S: Serializer>(&self, serializer: S) -> Result<S::Ok, S::Error> {
        let mut bits = self.0;
        let mut map = serializer.serialize_map(Some(T::count(bits)))?;
        while let Some(element) = T::take(&mut bits) {
            map.serialize_entry(&element, &true)?;
        }
        map.end()
    }
}

impl<'de, T: Element> Deserialize<'de> for Map<T> {
    fn deserialize<D: Deserializer<'de>>(deserializer: D) -> Result<Self, D::Error> {
        deserializer.deserialize_map(MapVisitor(PhantomData))
    }
}

struct MapVisitor<T>(PhantomData<T>);

impl<'de, T: Element> Visitor<'de> for MapVisitor<T> {
    type Value = Map<T>;

    fn expecting(&self, formatter: &mut Formatter) -> fmt::Result {
        formatter.write_str("a map of names to booleans")
    }

    fn visit_map<A: MapAccess<'de>>(self, mut map: A) -> Result<Map<T>, A::Error> {
        let mut bits = T::Bits::default();
        while let Some((element, is_member)) = map.next_entry::<T, bool>()? {
            if is_member {
                element.insert(&mut bits);
            }
        }
        Ok(Map(bits))
    }
}

/// A set that is an array of words in JSON.
struct Words<const N: usize>([u64; N]);

impl<const N: usize> Serialize for Words<N> {
    fn serialize<S: Serializer>(&self, serializer: S) -> Result<S::Ok, S::Error> {
        let mut words = serializer.serialize_seq(Some(N))?;
        for word in &self.0 {
            words.serialize_element(word)?;
        }
        words.end()
    }
}

impl<'de, const N: usize> Deserialize<'de> for Words<N> {
    fn deserialize<D: Deserializer<'de>>(deserializer: D) -> Result<Self, D::Error> {
        deserializer.deserialize_seq(WordsVisitor)
    }
}

struct WordsVisitor<const N: usize>;

impl<'de, const N: usize> Visitor<'de> for WordsVisitor<N> {
    type Value = Words<N>;

    fn expecting(&self, formatter: &mut Formatter) -> fmt::Result {
        formatter.write_str("an array of words")
    }

    fn visit_seq<A: SeqAccess<'de>>(self, mut list: A) -> Result<Words<N>, A::Error> {
        let mut words = [0; N];
        let mut place = 0;
        while let Some(word) = list.next_element::<u64>()? {
            if place < N {
                words[place] = word & VALID;
            }
            place += 1;
        }
        Ok(Words(words))
    }
}

/// Reads each string into the set at its place.
#[inline(never)]
fn read_all<S: DeserializeOwned>(texts: &[&str], sets: &mut [S]) -> serde_json::Result<()> {
    for (set, text) in sets.iter_mut().zip(texts) {
        *set = serde_json::from_str(text)?;
    }
    Ok(())
}

/// Writes each set into the string at its place.
#[inline(never)]
fn write_all<S: Serialize>(sets: &[S], texts: &mut [String]) -> serde_json::Result<()> {
    for (text, set) in texts.iter_mut().zip(sets) {
        *text = serde_json::to_string(set)?;
    }
    Ok(())
}

/// The nanoseconds of a pass of the least round.
fn least_time(mut pass: impl FnMut() -> serde_json::Result<()>) -> serde_json::Result<u128> {
    let mut least = u128::MAX;
    for _ in 0..ROUNDS {
        let start = Instant::now();
        for _ in 0..PASSES {
            pass()?;
        }
        least = least.min(start.elapsed().as_nanos());
    }
    Ok(least / PASSES)
}

/// Reads the strings and writes the sets. The answer has the times of both, and what was written.
fn timed<S: Serialize + DeserializeOwned>(texts: &[&str]) -> serde_json::Result<String> {
    let mut sets: Vec<S> = texts
        .iter()
        .map(|text| serde_json::from_str(text))
        .collect::<Result<_, _>>()?;
    let read = least_time(|| read_all(texts, &mut sets))?;
    let mut written = vec![String::new(); texts.len()];
    let write = least_time(|| write_all(&sets, &mut written))?;
    Ok(format!("{read} {write}\t{}", written.join("\t")))
}

/// Times a line: the form with the element type, and after it the strings.
fn timed_line(line: &str) -> Result<String, Box<dyn Error>> {
    let mut parts = line.split('\t');
    let name = parts.next().unwrap_or("");
    let texts: Vec<&str> = parts.collect();
    Ok(match name {
        "list Right" => timed::<List<Right>>(&texts)?,
        "list Setting" => timed::<List<Setting>>(&texts)?,
        "map Right" => timed::<Map<Right>>(&texts)?,
        "map Setting" => timed::<Map<Setting>>(&texts)?,
        "number Bit" => timed::<u64>(&texts)?,
        "words Wide1" => timed::<Words<1>>(&texts)?,
        "words Wide2" => timed::<Words<2>>(&texts)?,
        "words Wide4" => timed::<Words<4>>(&texts)?,
        "words Wide64" => timed::<Words<64>>(&texts)?,
        _ => return Err("a line names no form and element type".into()),
    })
}

fn main() -> Result<(), Box<dyn Error>> {
    let mut output = io::stdout().lock();
    for line in io::stdin().lock().lines() {
        writeln!(output, "{}", timed_line(&line?)?)?;
    }
    Ok(())
}
