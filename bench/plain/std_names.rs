//! What the crates use of Rattle's std, over Rust's: growth that fails is an answer there. HashMap
//! is Rattle's index table over dense entries, retold.
use std::hash::{Hash, Hasher};
use std::ops::{Deref, DerefMut};

#[derive(Clone, Copy, Debug)]
pub struct Global;

#[derive(Clone, Copy, Debug)]
pub struct AllocError;

pub struct Box<T>(std::boxed::Box<T>);

pub struct BoxFailed<T> {
    pub value: T,
}

impl<T> Box<T> {
    #[inline]
    pub fn new(_: Global, value: T) -> Result<Box<T>, BoxFailed<T>> {
        Ok(Box(std::boxed::Box::new(value)))
    }
    #[inline]
    pub fn into_inner(this: Box<T>) -> T {
        *this.0
    }
}

impl<T> Deref for Box<T> {
    type Target = T;
    #[inline]
    fn deref(&self) -> &T {
        &self.0
    }
}

impl<T> DerefMut for Box<T> {
    #[inline]
    fn deref_mut(&mut self) -> &mut T {
        &mut self.0
    }
}

#[derive(Debug)]
pub struct Vec<T>(pub std::vec::Vec<T>);

impl<T> Deref for Vec<T> {
    type Target = [T];
    #[inline]
    fn deref(&self) -> &[T] {
        &self.0
    }
}

impl<T> DerefMut for Vec<T> {
    #[inline]
    fn deref_mut(&mut self) -> &mut [T] {
        &mut self.0
    }
}

impl<'a, T> IntoIterator for &'a Vec<T> {
    type Item = &'a T;
    type IntoIter = std::slice::Iter<'a, T>;
    fn into_iter(self) -> Self::IntoIter {
        self.0.iter()
    }
}

impl<'a, T> IntoIterator for &'a mut Vec<T> {
    type Item = &'a mut T;
    type IntoIter = std::slice::IterMut<'a, T>;
    fn into_iter(self) -> Self::IntoIter {
        self.0.iter_mut()
    }
}

impl<T> IntoIterator for Vec<T> {
    type Item = T;
    type IntoIter = std::vec::IntoIter<T>;
    fn into_iter(self) -> Self::IntoIter {
        self.0.into_iter()
    }
}

impl<T> Vec<T> {
    pub fn new(_: Global) -> Self {
        Vec(std::vec::Vec::new())
    }
    pub fn with_capacity(_: Global, n: usize) -> Result<Self, AllocError> {
        Ok(Vec(std::vec::Vec::with_capacity(n)))
    }
    #[inline]
    pub fn allocator(&self) -> &Global {
        &Global
    }
    #[inline]
    pub fn as_slice(&self) -> &[T] {
        &self.0
    }
    #[inline]
    pub fn as_mut_slice(&mut self) -> &mut [T] {
        &mut self.0
    }
    #[inline]
    pub fn capacity(&self) -> usize {
        self.0.capacity()
    }
    #[inline]
    pub fn insert(&mut self, at: usize, item: T) -> Result<(), T> {
        self.0.insert(at, item);
        Ok(())
    }
    #[inline]
    pub fn remove(&mut self, at: usize) -> T {
        self.0.remove(at)
    }
    #[inline]
    pub fn swap_remove(&mut self, at: usize) -> T {
        self.0.swap_remove(at)
    }
    #[inline]
    pub fn push_reserved(&mut self, item: T) {
        debug_assert!(self.0.len() < self.0.capacity());
        unsafe {
            let len = self.0.len();
            self.0.as_mut_ptr().add(len).write(item);
            self.0.set_len(len + 1);
        }
    }
    #[inline]
    pub fn push(&mut self, item: T) -> Result<(), AllocError> {
        self.0.push(item);
        Ok(())
    }
    #[inline]
    pub fn pop(&mut self) -> Option<T> {
        self.0.pop()
    }
    #[inline]
    pub fn reserve(&mut self, more: usize) -> Result<(), AllocError> {
        self.0.reserve(more);
        Ok(())
    }
    pub fn clear(&mut self) {
        self.0.clear()
    }
    #[inline]
    pub fn retain<P: FnMut(&T) -> bool>(&mut self, keep: P) {
        self.0.retain(keep)
    }
    pub fn truncate(&mut self, len: usize) {
        self.0.truncate(len)
    }
    pub fn append(&mut self, other: &mut Vec<T>) -> Result<(), AllocError> {
        self.0.append(&mut other.0);
        Ok(())
    }
    #[inline]
    pub fn extend_from_slice(&mut self, items: &[T]) -> Result<(), AllocError>
    where
        T: Clone,
    {
        self.0.extend_from_slice(items);
        Ok(())
    }
    pub fn resize(&mut self, len: usize, item: T) -> Result<(), AllocError>
    where
        T: Clone,
    {
        self.0.resize(len, item);
        Ok(())
    }
    pub fn destroy_empty(self) {}
}

/// Where the shorter side moves.
#[derive(Debug)]
pub struct VecDeque<T>(std::collections::VecDeque<T>);

impl<T> std::ops::Index<usize> for VecDeque<T> {
    type Output = T;
    #[inline]
    fn index(&self, at: usize) -> &T {
        &self.0[at]
    }
}

impl<T> std::ops::IndexMut<usize> for VecDeque<T> {
    #[inline]
    fn index_mut(&mut self, at: usize) -> &mut T {
        &mut self.0[at]
    }
}

impl<T> VecDeque<T> {
    pub fn new(_: Global) -> Self {
        VecDeque(std::collections::VecDeque::new())
    }
    #[inline]
    pub fn is_empty(&self) -> bool {
        self.0.is_empty()
    }
    #[inline]
    pub fn len(&self) -> usize {
        self.0.len()
    }
    #[inline]
    pub fn insert(&mut self, at: usize, item: T) -> Result<(), T> {
        self.0.insert(at, item);
        Ok(())
    }
    #[inline]
    pub fn remove(&mut self, at: usize) -> Option<T> {
        self.0.remove(at)
    }
    #[inline]
    pub fn push_back_reserved(&mut self, item: T) {
        debug_assert!(self.0.len() < self.0.capacity());
        self.0.push_back(item)
    }
    #[inline]
    pub fn pop_front(&mut self) -> Option<T> {
        self.0.pop_front()
    }
    #[inline]
    pub fn pop_back(&mut self) -> Option<T> {
        self.0.pop_back()
    }
    #[inline]
    pub fn partition_point<P: FnMut(&T) -> bool>(&self, test: P) -> usize {
        self.0.partition_point(test)
    }
    pub fn append(&mut self, other: &mut VecDeque<T>) -> Result<(), AllocError> {
        self.0.append(&mut other.0);
        Ok(())
    }
    #[inline]
    pub fn reserve(&mut self, more: usize) -> Result<(), AllocError> {
        std::collections::VecDeque::reserve(&mut self.0, more);
        Ok(())
    }
    pub fn destroy_empty(self) {}
}

/// Rattle's FoldHasher, of numbers.
#[derive(Debug, Default)]
pub struct Folded(u64);

impl Folded {
    #[inline]
    fn short(&mut self, n: u64, len: u64) {
        let product = (self.0 ^ n) as u128 * (0x9E37_79B9_7F4A_7C15 ^ 2 * len) as u128;
        self.0 = (product >> 64) as u64 ^ product as u64
    }
}

impl Hasher for Folded {
    #[inline]
    fn finish(&self) -> u64 {
        self.0
    }
    fn write(&mut self, bytes: &[u8]) {
        bytes.iter().for_each(|it| self.short(*it as u64, 1))
    }
    #[inline]
    fn write_u32(&mut self, n: u32) {
        self.short(n as u64, 4)
    }
    #[inline]
    fn write_u64(&mut self, n: u64) {
        self.short(n, 8)
    }
}

#[inline]
pub fn hash_of<K: Hash>(key: &K) -> u32 {
    let mut hasher = Folded(0x243F_6A88_85A3_08D3);
    key.hash(&mut hasher);
    hasher.finish() as u32
}

#[derive(Clone, Copy)]
struct Group {
    tags: [u8; 16],
    indices: [u32; 12],
}

#[derive(Clone, Copy)]
struct Bucket {
    hash: u32,
    slot: u32,
}

#[inline]
fn tag(hash: u32) -> u8 {
    ((hash >> 24) as u8).max(1)
}

impl Group {
    fn empty() -> Group {
        Group { tags: [0; 16], indices: [0; 12] }
    }
    #[inline]
    fn match_tag(&self, tag: u8) -> u32 {
        use std::arch::x86_64::*;
        unsafe {
            let tags = _mm_loadu_si128(self.tags.as_ptr() as *const __m128i);
            (_mm_movemask_epi8(_mm_cmpeq_epi8(tags, _mm_set1_epi8(tag as i8))) & 0xFFF) as u32
        }
    }
    #[inline]
    fn overflow(&self) -> u32 {
        u32::from_le_bytes([self.tags[12], self.tags[13], self.tags[14], self.tags[15]])
    }
    #[inline]
    fn is_overflowed(&self, hash: u32) -> bool {
        (self.overflow() >> (tag(hash) & 31)) & 1 != 0
    }
    fn mark_overflow(&mut self, hash: u32) {
        let bits = (self.overflow() | 1 << (tag(hash) & 31)).to_le_bytes();
        self.tags[12..].copy_from_slice(&bits);
    }
}

/// Indices by hash: groups of twelve lanes, and a bucket of each entry.
struct Table {
    groups: std::vec::Vec<Group>,
    buckets: std::vec::Vec<Bucket>,
    growth_left: usize,
}

impl Table {
    fn new() -> Table {
        Table { groups: std::vec::Vec::new(), buckets: std::vec::Vec::new(), growth_left: 0 }
    }
    #[inline(always)]
    fn find(&self, hash: u32, eq: impl Fn(usize) -> bool) -> Option<(usize, usize, usize)> {
        let count = self.groups.len();
        if count == 0 {
            return None;
        }
        let start = hash as usize & (count - 1);
        let mut pos = start;
        loop {
            let group = &self.groups[pos];
            let mut matches = group.match_tag(tag(hash));
            while matches != 0 {
                let lane = matches.trailing_zeros() as usize;
                let index = group.indices[lane] as usize;
                if eq(index) {
                    return Some((pos, lane, index));
                }
                matches &= matches - 1;
            }
            if !group.is_overflowed(hash) {
                return None;
            }
            pos = (pos + 1) & (count - 1);
            if pos == start {
                return None;
            }
        }
    }
    fn place(groups: &mut [Group], hash: u32, index: u32) -> Bucket {
        let count = groups.len();
        let mut pos = hash as usize & (count - 1);
        loop {
            let group = &mut groups[pos];
            let empty = group.match_tag(0);
            if empty != 0 {
                let lane = empty.trailing_zeros() as usize;
                group.tags[lane] = tag(hash);
                group.indices[lane] = index;
                return Bucket { hash, slot: (16 * pos + lane) as u32 };
            }
            group.mark_overflow(hash);
            pos = (pos + 1) & (count - 1);
        }
    }
    #[inline]
    fn push(&mut self, hash: u32) {
        let bucket = Table::place(&mut self.groups, hash, self.buckets.len() as u32);
        self.buckets.push(bucket);
        self.growth_left -= 1;
    }
    #[inline]
    fn erase(&mut self, (pos, lane, index): (usize, usize, usize)) {
        let last = self.buckets[self.buckets.len() - 1].slot as usize;
        self.groups[last / 16].indices[last % 16] = index as u32;
        self.buckets.swap_remove(index);
        let group = &mut self.groups[pos];
        group.tags[lane] = 0;
        self.growth_left += (group.overflow() == 0) as usize;
    }
    #[cold]
    fn grow(&mut self, more: usize) {
        let wanted = self.buckets.len() + more;
        let mut count = self.groups.len().max(1);
        if wanted * 2 > 9 * count {
            while 9 * count < wanted * 2 {
                count *= 2;
            }
        }
        self.groups = vec![Group::empty(); count];
        for index in 0..self.buckets.len() {
            self.buckets[index] = Table::place(&mut self.groups, self.buckets[index].hash, index as u32);
        }
        self.growth_left = 9 * count - self.buckets.len();
        self.buckets.reserve(self.growth_left);
    }
    #[inline]
    fn reserve(&mut self, more: usize) {
        if self.growth_left < more {
            self.grow(more)
        }
    }
}

pub struct HashMap<K, V> {
    entries: std::vec::Vec<(K, V)>,
    table: Table,
}

impl<K: Hash + Eq, V> HashMap<K, V> {
    pub fn new(_: Global) -> Self {
        HashMap { entries: std::vec::Vec::new(), table: Table::new() }
    }
    #[inline]
    pub fn len(&self) -> usize {
        self.entries.len()
    }
    #[inline]
    pub fn reserve(&mut self, more: usize) -> Result<(), AllocError> {
        self.table.reserve(more);
        self.entries.reserve(more);
        Ok(())
    }
    #[inline]
    pub fn get_index_of(&self, key: &K) -> Option<usize> {
        let found = self.table.find(hash_of(key), |index| self.entries[index].0 == *key)?;
        Some(found.2)
    }
    #[inline]
    pub fn get(&self, key: &K) -> Option<&V> {
        Some(&self.entries[self.get_index_of(key)?].1)
    }
    #[inline]
    pub fn get_mut(&mut self, key: &K) -> Option<&mut V> {
        let index = self.get_index_of(key)?;
        Some(&mut self.entries[index].1)
    }
    #[inline]
    pub fn get_index(&self, index: usize) -> Option<(&K, &V)> {
        self.entries.get(index).map(|it| (&it.0, &it.1))
    }
    #[inline]
    pub fn insert(&mut self, key: K, value: V) -> Result<Option<V>, AllocError> {
        let hash = hash_of(&key);
        if let Some((_, _, index)) = self.table.find(hash, |index| self.entries[index].0 == key) {
            return Ok(Some(std::mem::replace(&mut self.entries[index].1, value)));
        }
        self.reserve(1)?;
        self.table.push(hash);
        self.entries.push((key, value));
        Ok(None)
    }
    #[inline]
    pub fn remove(&mut self, key: &K) -> Option<V> {
        let found = self.table.find(hash_of(key), |index| self.entries[index].0 == *key)?;
        self.table.erase(found);
        Some(self.entries.swap_remove(found.2).1)
    }
}

impl<K: Hash + Eq, V> std::ops::Index<usize> for HashMap<K, V> {
    type Output = V;
    #[inline]
    fn index(&self, index: usize) -> &V {
        &self.entries[index].1
    }
}

impl<K: Hash + Eq, V> std::ops::IndexMut<usize> for HashMap<K, V> {
    #[inline]
    fn index_mut(&mut self, index: usize) -> &mut V {
        &mut self.entries[index].1
    }
}

pub trait DestroyEmpty: Sized {
    fn destroy_empty(self) {}
}

impl<T> DestroyEmpty for std::vec::IntoIter<T> {}
