//! A program in Rust that calls the six jobs, shows what they answer and holds each answer to the value it must have.
//! It ends with status 1 if one is off. It does what host.c does, and writes the same lines.

/// The exported functions as slices. A slice that is written overlaps no other, and that is all a caller owes.
mod cafunderi {
    #[repr(C)]
    pub struct Reply {
        pub reply: u32,
        pub detail: u32,
    }

    mod c {
        use super::Reply;

        extern "C" {
            pub fn cafunderi_fresh(chambers: *mut u32, chambers_len: usize, store: *mut u32, store_len: usize) -> Reply;
            pub fn cafunderi_try(
                section: *const u32,
                section_len: usize,
                rectangle: *const u32,
                rectangle_len: usize,
                placed: *mut u32,
                placed_len: usize,
            ) -> Reply;
            pub fn cafunderi_pack(
                chambers: *mut u32,
                chambers_len: usize,
                store: *mut u32,
                store_len: usize,
                rectangles: *const u32,
                rectangles_len: usize,
                placements: *mut u32,
                placements_len: usize,
            ) -> Reply;
            pub fn cafunderi_return(
                chambers: *mut u32,
                chambers_len: usize,
                store: *mut u32,
                store_len: usize,
                id: u32,
                section: *const u32,
                section_len: usize,
                common: *mut u32,
                common_len: usize,
            ) -> Reply;
            pub fn cafunderi_join(
                chambers: *mut u32,
                chambers_len: usize,
                store: *mut u32,
                store_len: usize,
                id: u32,
                common: *mut u32,
                common_len: usize,
            ) -> Reply;
            pub fn cafunderi_audit(
                sides: *const u32,
                sides_len: usize,
                placed: *const u32,
                placed_len: usize,
                free: *const u32,
                free_len: usize,
                common: *mut u32,
                common_len: usize,
            ) -> Reply;
        }
    }

    pub fn fresh(chambers: &mut [u32], store: &mut [u32]) -> Reply {
        unsafe { c::cafunderi_fresh(chambers.as_mut_ptr(), chambers.len(), store.as_mut_ptr(), store.len()) }
    }

    pub fn try_placement(section: &[u32], rectangle: &[u32], placed: &mut [u32]) -> Reply {
        unsafe {
            c::cafunderi_try(
                section.as_ptr(),
                section.len(),
                rectangle.as_ptr(),
                rectangle.len(),
                placed.as_mut_ptr(),
                placed.len(),
            )
        }
    }

    pub fn pack(chambers: &mut [u32], store: &mut [u32], rectangles: &[u32], placements: &mut [u32]) -> Reply {
        unsafe {
            c::cafunderi_pack(
                chambers.as_mut_ptr(),
                chambers.len(),
                store.as_mut_ptr(),
                store.len(),
                rectangles.as_ptr(),
                rectangles.len(),
                placements.as_mut_ptr(),
                placements.len(),
            )
        }
    }

    pub fn return_section(
        chambers: &mut [u32],
        store: &mut [u32],
        id: u32,
        section: &[u32],
        common: &mut [u32],
    ) -> Reply {
        unsafe {
            c::cafunderi_return(
                chambers.as_mut_ptr(),
                chambers.len(),
                store.as_mut_ptr(),
                store.len(),
                id,
                section.as_ptr(),
                section.len(),
                common.as_mut_ptr(),
                common.len(),
            )
        }
    }

    pub fn join(chambers: &mut [u32], store: &mut [u32], id: u32, common: &mut [u32]) -> Reply {
        unsafe {
            c::cafunderi_join(
                chambers.as_mut_ptr(),
                chambers.len(),
                store.as_mut_ptr(),
                store.len(),
                id,
                common.as_mut_ptr(),
                common.len(),
            )
        }
    }

    pub fn audit(sides: &[u32], placed: &[u32], free: &[u32], common: &mut [u32]) -> Reply {
        unsafe {
            c::cafunderi_audit(
                sides.as_ptr(),
                sides.len(),
                placed.as_ptr(),
                placed.len(),
                free.as_ptr(),
                free.len(),
                common.as_mut_ptr(),
                common.len(),
            )
        }
    }
}

use cafunderi::Reply;

const ID: u32 = 1;

/// Whether an answer was off.
struct Held {
    wrong: bool,
}

impl Held {
    fn reply(&mut self, what: &str, got: Reply, reply: u32, detail: u32) {
        println!("{}: reply {}, detail {}", what, got.reply, got.detail);
        if got.reply != reply || got.detail != detail {
            println!("  WRONG: should be reply {}, detail {}", reply, detail);
            self.wrong = true;
        }
    }

    fn words(&mut self, what: &str, words: &[u32], wanted: &[u32]) {
        let text: Vec<String> = words.iter().map(|word| word.to_string()).collect();
        println!("  {}: {}", what, text.join(" "));
        if words != wanted {
            println!("  WRONG");
            self.wrong = true;
        }
    }

    fn zeros(&mut self, what: &str, words: &[u32]) {
        if words.iter().any(|word| *word != 0) {
            println!("  WRONG: a word of {} is not 0", what);
            self.wrong = true;
        }
    }
}

fn main() {
    let mut held = Held { wrong: false };
    let sides = [10, 10, 1];
    let mut chambers = [ID, 10, 10, 1, 99]; // fresh ignores the old count
    let mut store = [u32::MAX; 768];

    held.reply("fresh", cafunderi::fresh(&mut chambers, &mut store), 0, 0);
    held.words("chamber", &chambers, &[ID, 10, 10, 1, 1]);
    held.words("free", &store[..6], &[0, 0, 0, 10, 10, 1]);
    held.zeros("the store", &store[6..]);

    let mut tried = [u32::MAX; 21];
    let right_above_behind = [0, 0, 0, 4, 0, 0, 6, 4, 1, 0, 4, 0, 10, 6, 1, 0, 0, 1, 10, 10, 0];
    held.reply("try 4x4x1", cafunderi::try_placement(&store[..6], &[4, 4, 1], &mut tried), 0, 0);
    held.words("location, right, above, behind", &tried, &right_above_behind);
    held.reply("try 11x1x1, too wide", cafunderi::try_placement(&store[..6], &[11, 1, 1], &mut tried), 12, 0);
    held.zeros("a refused try", &tried);

    // Rectangles 7 and 3, of no group. The one with the lower id goes first.
    let rectangles = [7, 0, 4, 4, 1, 3, 0, 4, 4, 1];
    let mut placements = [u32::MAX; 10];
    let both_placed = [1, ID, 4, 0, 0, 1, ID, 0, 0, 0];
    let packed = cafunderi::pack(&mut chambers, &mut store, &rectangles, &mut placements);
    held.reply("pack 7 and 3, both 4x4x1", packed, 0, 0);
    held.words("placements of 7 and 3", &placements, &both_placed);
    held.words("chamber", &chambers, &[ID, 10, 10, 1, 2]);
    held.words("free", &store[..12], &[0, 4, 0, 10, 6, 1, 8, 0, 0, 2, 4, 1]);
    held.zeros("the store", &store[12..]);

    // Both boxes are placed. The store's counted sections are the audit's free list.
    let boxes = [0, 0, 0, 4, 4, 1, 4, 0, 0, 4, 4, 1];
    let (three, seven) = boxes.split_at(6);
    let mut common = [u32::MAX; 6];
    held.reply("audit", cafunderi::audit(&sides, &boxes, &store[..12], &mut common), 0, 0);
    held.zeros("no common box", &common);
    let gap = cafunderi::audit(&sides, &boxes, &store[..6], &mut common);
    held.reply("audit without the last free section", gap, 18, 0);

    // One more box, that meets both placed ones: the space that it shares with the earlier of them.
    let astray = cafunderi::audit(&sides, &boxes, &[3, 3, 0, 2, 2, 1], &mut common);
    held.reply("audit with a box astray", astray, 17, 2);
    held.words("common box", &common, &[3, 3, 0, 1, 1, 1]);

    // Box 7 comes back.
    let three_free = [0, 4, 0, 10, 6, 1, 8, 0, 0, 2, 4, 1, 4, 0, 0, 4, 4, 1];
    held.reply("return 7", cafunderi::return_section(&mut chambers, &mut store, ID, seven, &mut common), 0, 2);
    held.zeros("no common box", &common);
    held.words("chamber", &chambers, &[ID, 10, 10, 1, 3]);
    held.words("free", &store[..18], &three_free);
    held.reply("audit", cafunderi::audit(&sides, three, &store[..18], &mut common), 0, 0);

    // Refusals write nothing to the tables. A return that overlaps hands on the space shared, and a wrong length nothing at all.
    let over = [3, 1, 0, 3, 2, 1];
    let overlaps = cafunderi::return_section(&mut chambers, &mut store, ID, &over, &mut common);
    held.reply("return a box that reaches into 7", overlaps, 10, 2);
    held.words("common box", &common, &[4, 1, 0, 2, 2, 1]);
    let short = cafunderi::return_section(&mut chambers, &mut store, ID, &seven[..5], &mut common);
    held.reply("return a box of five words", short, 1, 0);
    let narrow = cafunderi::return_section(&mut chambers, &mut store, ID, &over, &mut common[..5]);
    held.reply("return with five words for the common box", narrow, 1, 0);
    let narrow = cafunderi::join(&mut chambers, &mut store, ID, &mut common[..5]);
    held.reply("join with five words for the common box", narrow, 1, 0);
    held.words("common box", &common, &[4, 1, 0, 2, 2, 1]);
    let nowhere = cafunderi::join(&mut chambers, &mut store, ID + 1, &mut common);
    held.reply("join in a chamber that is not there", nowhere, 8, 0);
    held.zeros("no common box", &common);
    let few = cafunderi::pack(&mut chambers, &mut store, &rectangles, &mut placements[..5]);
    held.reply("pack with one placement record", few, 1, 0);
    held.words("placements of 7 and 3", &placements, &both_placed);
    held.words("chamber", &chambers, &[ID, 10, 10, 1, 3]);
    held.words("free", &store[..18], &three_free);
    held.zeros("the store", &store[18..]);

    // Box 3 comes back too. The chamber is free, in four pieces. Rectangle 8 fits none of them, and fits once they are joined.
    let eight = [8, 0, 10, 7, 1];
    let mut placement = [u32::MAX; 5];
    held.reply("return 3", cafunderi::return_section(&mut chambers, &mut store, ID, three, &mut common), 0, 3);
    held.reply("pack 8, 10x7x1", cafunderi::pack(&mut chambers, &mut store, &eight, &mut placement), 7, 0);
    held.zeros("an unplaced record", &placement);
    common = [u32::MAX; 6];
    held.reply("join", cafunderi::join(&mut chambers, &mut store, ID, &mut common), 0, 3);
    held.zeros("no common box", &common);
    held.words("chamber", &chambers, &[ID, 10, 10, 1, 1]);
    held.words("free", &store[..6], &[0, 0, 0, 10, 10, 1]);
    held.zeros("the store", &store[6..]);
    held.reply("pack 8, 10x7x1", cafunderi::pack(&mut chambers, &mut store, &eight, &mut placement), 0, 0);
    held.words("placement of 8", &placement, &[1, ID, 0, 0, 0]);
    held.words("free", &store[..6], &[0, 7, 0, 10, 3, 1]);

    // Empty tables.
    held.reply("fresh, no chambers", cafunderi::fresh(&mut [], &mut []), 0, 0);
    held.reply("pack, nothing at all", cafunderi::pack(&mut [], &mut [], &[], &mut []), 0, 0);
    held.reply("audit, no boxes", cafunderi::audit(&sides, &[], &[], &mut common), 18, 0);

    println!("{}", if held.wrong { "some answers are WRONG" } else { "all answers are as they must be" });
    std::process::exit(held.wrong as i32);
}
