//! Memory for the original to run on: stable pages held sparsely, so that a large count costs nothing.

pub mod raw_memory {
    use crate::config::STABLE_PAGE_SIZE;
    use std::cell::RefCell;
    use std::collections::BTreeMap;
    use std::rc::Rc;

    const PAGE_LEN: usize = STABLE_PAGE_SIZE as usize;

    pub trait Memory {
        fn size(&self) -> u64;
        fn grow(&self, pages: u64) -> i64;
        fn read(&self, offset: u64, dst: &mut [u8]);
        fn write(&self, offset: u64, src: &[u8]);
    }

    struct Pages {
        count: u64,
        ceiling: u64,
        written: BTreeMap<u64, Vec<u8>>,
    }

    /// A handle of one memory; its clones are handles of the same.
    #[derive(Clone)]
    pub struct DefaultMemoryImpl(Rc<RefCell<Pages>>);

    impl DefaultMemoryImpl {
        /// Memory of `count` stable pages that starts with `bytes`, the rest zeros.
        pub fn holding(bytes: &[u8], count: u64, ceiling: u64) -> Self {
            let memory = Self(Rc::new(RefCell::new(Pages {
                count,
                ceiling,
                written: BTreeMap::new(),
            })));
            memory.write(0, bytes);
            memory
        }

        /// The first place where memory is not these bytes, which are all of it.
        pub fn difference(&self, bytes: &[u8]) -> Option<usize> {
            let memory = self.0.borrow();
            assert_eq!(bytes.len() as u64, memory.count * STABLE_PAGE_SIZE);
            let differs = |(page, part): &(u64, &[u8])| match memory.written.get(page) {
                Some(held) => held != part,
                None => part.iter().any(|byte| *byte != 0),
            };
            let (page, part) = (0..).zip(bytes.chunks(PAGE_LEN)).find(differs)?;
            let zeros = vec![0; PAGE_LEN];
            let held = memory.written.get(&page).unwrap_or(&zeros);
            let at = part
                .iter()
                .zip(held)
                .position(|(one, other)| one != other)?;
            Some(page as usize * PAGE_LEN + at)
        }

        fn require(&self, offset: u64, len: usize) {
            let end = u128::from(offset) + len as u128;
            let held = u128::from(self.size()) * u128::from(STABLE_PAGE_SIZE);
            assert!(
                end <= held,
                "memory of {held} bytes is asked for byte {end}"
            );
        }
    }

    impl Default for DefaultMemoryImpl {
        fn default() -> Self {
            Self::holding(&[], 0, u64::MAX)
        }
    }

    impl Memory for DefaultMemoryImpl {
        fn size(&self) -> u64 {
            self.0.borrow().count
        }

        fn grow(&self, pages: u64) -> i64 {
            let mut memory = self.0.borrow_mut();
            let before = memory.count;
            match before.checked_add(pages) {
                Some(after) if after <= memory.ceiling => {
                    memory.count = after;
                    i64::try_from(before).expect("a count that the interface can answer")
                }
                _ => -1,
            }
        }

        fn read(&self, offset: u64, dst: &mut [u8]) {
            self.require(offset, dst.len());
            let memory = self.0.borrow();
            for (page, at, part) in parts(offset, dst.len()) {
                let out = &mut dst[part.clone()];
                match memory.written.get(&page) {
                    Some(bytes) => out.copy_from_slice(&bytes[at..at + part.len()]),
                    None => out.fill(0),
                }
            }
        }

        fn write(&self, offset: u64, src: &[u8]) {
            self.require(offset, src.len());
            let mut memory = self.0.borrow_mut();
            for (page, at, part) in parts(offset, src.len()) {
                let bytes = memory
                    .written
                    .entry(page)
                    .or_insert_with(|| vec![0; PAGE_LEN]);
                bytes[at..at + part.len()].copy_from_slice(&src[part]);
            }
        }
    }

    /// Cuts a range of memory at the ends of stable pages: page, place in it, part of the buffer.
    fn parts(offset: u64, len: usize) -> Vec<(u64, usize, std::ops::Range<usize>)> {
        let mut parts = Vec::new();
        let mut done = 0;
        while done < len {
            let absolute = offset + done as u64;
            let at = (absolute % STABLE_PAGE_SIZE) as usize;
            let next = len.min(done + PAGE_LEN - at);
            parts.push((absolute / STABLE_PAGE_SIZE, at, done..next));
            done = next;
        }
        parts
    }
}

pub mod memory_manager {
    use super::raw_memory::Memory;
    use std::cell::Cell;

    thread_local! {
        static NEXT_IDENTITY: Cell<u64> = const { Cell::new(0) };
    }

    #[derive(Clone, Copy, Debug, Eq, PartialEq)]
    pub struct MemoryIdentity(u64);

    pub struct MemoryId;

    impl MemoryId {
        pub fn new(_id: u8) -> Self {
            Self
        }
    }

    pub struct MemoryManager<M>(M);

    impl<M: Memory + Clone> MemoryManager<M> {
        pub fn init(memory: M) -> Self {
            Self(memory)
        }

        pub fn get(&self, _id: MemoryId) -> VirtualMemory<M> {
            VirtualMemory::over(self.0.clone())
        }
    }

    pub struct VirtualMemory<M> {
        identity: MemoryIdentity,
        memory: M,
    }

    impl<M: Memory> VirtualMemory<M> {
        pub fn over(memory: M) -> Self {
            let identity = MemoryIdentity(NEXT_IDENTITY.replace(NEXT_IDENTITY.get() + 1));
            Self { identity, memory }
        }

        pub fn identity(&self) -> MemoryIdentity {
            self.identity
        }
    }

    impl<M: Memory> Memory for VirtualMemory<M> {
        fn size(&self) -> u64 {
            self.memory.size()
        }

        fn grow(&self, pages: u64) -> i64 {
            self.memory.grow(pages)
        }

        fn read(&self, offset: u64, dst: &mut [u8]) {
            self.memory.read(offset, dst);
        }

        fn write(&self, offset: u64, src: &[u8]) {
            self.memory.write(offset, src);
        }
    }
}
