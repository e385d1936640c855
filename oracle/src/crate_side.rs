//! Talks to the crate rectangle-pack: hands it a job and turns what it says into the words of an answer.

use crate::debug_text::Text;
use crate::domain;
use crate::wire::{put_chambers, Chamber, Job, Rectangle, Section};
use rectangle_pack::{
    contains_smallest_box, pack_rects, volume_heuristic, BinSection, GroupedRectsToPlace,
    PackedLocation, RectToInsert, TargetBin,
};
use std::cmp::Reverse;
use std::collections::BTreeMap;

type Bins = BTreeMap<u32, TargetBin>;
type Placements = BTreeMap<u32, (u32, PackedLocation)>;

/// The crate's answer to a job, or why the job is outside of the compared domain.
pub fn answer(job: &Job) -> Result<Vec<u32>, String> {
    domain::check(job)?;
    Ok(match job {
        Job::Try { section, sides } => answer_try(section, sides),
        Job::Return { chambers, id, part } => answer_return(chambers, *id, part),
        Job::Pack {
            chambers,
            rectangles,
        } => answer_pack(chambers, rectangles),
        Job::Join { .. } => return Err(domain::NO_JOIN.to_string()),
    })
}

/// Places one rectangle in a bin, for the tables of random jobs; gives where it stands.
pub fn place_one(bin: &mut TargetBin, sides: [u32; 3]) -> Option<Section> {
    let mut bins = Bins::from([(0, bin.clone())]);
    let rectangle = Rectangle {
        id: 0,
        group: 0,
        sides,
    };
    let placements = pack([&rectangle], &mut bins)?;
    *bin = bins.remove(&0).expect("the bin is still there");
    Some(Section {
        at: at(&placements[&0].1),
        sides,
    })
}

/// The free sections of a bin.
pub fn free(bin: &TargetBin) -> Vec<Section> {
    let text = format!("{:?}", bin.available_bin_sections());
    Text::whole(&text, Text::sections)
}

fn answer_try(section: &Section, sides: &[u32; 3]) -> Vec<u32> {
    let tried =
        bin_section(section).try_place(&rect(sides), &contains_smallest_box, &volume_heuristic);
    let (location, sections) = match tried {
        Ok(placed) => placed,
        Err(error) => {
            let reply = match format!("{error:?}").as_str() {
                "PlacementWiderThanBinSection" => 12,
                "PlacementTallerThanBinSection" => 13,
                "PlacementDeeperThanBinSection" => 14,
                other => panic!("the crate refuses a try with {other}"),
            };
            let mut words = vec![0; 23];
            words[0] = reply;
            return words;
        }
    };
    let mut words = vec![0, 0];
    words.extend(at(&location));
    for section in Text::whole(&format!("{sections:?}"), Text::sections) {
        section.put(&mut words);
    }
    words
}

fn answer_return(chambers: &[Chamber], id: u32, part: &Section) -> Vec<u32> {
    let mut bins = bins(chambers);
    let bin = bins.get_mut(&id).expect("the chamber is listed");
    let before = free(bin);
    let (reply, detail, common) = match bin.push_available_bin_section(bin_section(part)) {
        Ok(()) => (0, before.len(), None),
        Err(error) => match Text::whole(&format!("{error:?}"), Text::refused_return) {
            None => (9, 0, None),
            Some(remaining) => {
                let index = before.iter().position(|section| *section == remaining);
                let index = index.expect("the crate names one of the free sections");
                (10, index, Some(common_box(&remaining, part)))
            }
        },
    };
    let mut words = vec![reply, detail as u32];
    match common {
        None => words.extend([0; 6]),
        Some(common) => common.put(&mut words),
    }
    put_tables(&bins, &mut words);
    words
}

/// The space that two boxes share. The crate's error has the two boxes and leaves it to the caller.
fn common_box(a: &Section, b: &Section) -> Section {
    let mut common = Section {
        at: [0; 3],
        sides: [0; 3],
    };
    for axis in 0..3 {
        // both boxes lie inside their chamber, so an end is a word
        let start = a.at[axis].max(b.at[axis]);
        let end = (a.at[axis] + a.sides[axis]).min(b.at[axis] + b.sides[axis]);
        common.at[axis] = start;
        common.sides[axis] = end - start;
    }
    common
}

fn answer_pack(chambers: &[Chamber], rectangles: &[Rectangle]) -> Vec<u32> {
    let mut after = bins(chambers);
    let (reply, detail, placements) = match pack(rectangles, &mut after) {
        Some(placements) => (0, 0, placements),
        None => {
            let (detail, placements) = refused_pack(chambers, rectangles, &after);
            (7, detail as u32, placements)
        }
    };
    let mut words = vec![reply, detail];
    for rectangle in rectangles {
        match placements.get(&rectangle.id) {
            None => words.extend([0; 5]),
            Some((chamber, location)) => {
                words.extend([1, *chamber]);
                words.extend(at(location));
            }
        }
    }
    put_tables(&after, &mut words);
    words
}

/// The crate's error carries no placements. They come from a second run, on the groups before the
/// refused one alone, which must leave the bins as the refused run left them. Gives the first
/// index of the refused group and those placements.
fn refused_pack(
    chambers: &[Chamber],
    rectangles: &[Rectangle],
    after: &Bins,
) -> (usize, Placements) {
    let groups = groups_in_order(rectangles);
    let run = |number: usize| {
        let mut bins = bins(chambers);
        let earlier = groups[..number].concat();
        let placements = pack(earlier.iter().map(|index| &rectangles[*index]), &mut bins);
        (placements, bins)
    };
    // the crate takes the first `served` groups alone, and refuses the first `refused`
    let (mut served, mut refused) = (0, groups.len());
    while refused - served > 1 {
        let middle = (served + refused) / 2;
        match run(middle).0 {
            Some(_) => served = middle,
            None => refused = middle,
        }
    }
    let (placements, second) = run(served);
    assert!(
        same_sections(&second, after),
        "a second run leaves other sections"
    );
    assert!(
        same_sections(&run(refused).1, after),
        "a third run leaves other sections"
    );
    (
        groups[served][0],
        placements.expect("the crate takes the earlier groups"),
    )
}

/// The groups in the order of the rules, each as table indices: falling sum of volumes; on a tie
/// the ungrouped by rectangle id, then the grouped by group id.
fn groups_in_order(rectangles: &[Rectangle]) -> Vec<Vec<usize>> {
    let mut groups: BTreeMap<(bool, u32), Vec<usize>> = BTreeMap::new();
    for (index, rectangle) in rectangles.iter().enumerate() {
        let key = match rectangle.group {
            0 => (false, rectangle.id),
            group => (true, group),
        };
        groups.entry(key).or_default().push(index);
    }
    let volume = |index: &usize| -> u128 {
        rectangles[*index]
            .sides
            .iter()
            .map(|side| *side as u128)
            .product()
    };
    let mut groups: Vec<Vec<usize>> = groups.into_values().collect();
    groups.sort_by_key(|group| Reverse(group.iter().map(volume).sum::<u128>()));
    groups
}

/// One run of the crate; none is NotEnoughBinSpace.
fn pack<'a>(
    rectangles: impl IntoIterator<Item = &'a Rectangle>,
    bins: &mut Bins,
) -> Option<Placements> {
    let mut to_place = GroupedRectsToPlace::<u32, u32>::new();
    let mut number = 0;
    for rectangle in rectangles {
        let groups = (rectangle.group != 0).then(|| vec![rectangle.group]);
        to_place.push_rect(rectangle.id, groups, rect(&rectangle.sides));
        number += 1;
    }
    let packed = pack_rects(&to_place, bins, &volume_heuristic, &contains_smallest_box).ok()?;
    let placements: Placements = packed
        .packed_locations()
        .iter()
        .map(|(id, placed)| (*id, *placed))
        .collect();
    assert_eq!(placements.len(), number, "the crate places all or refuses");
    Some(placements)
}

fn bins(chambers: &[Chamber]) -> Bins {
    chambers
        .iter()
        .map(|chamber| (chamber.id, bin(chamber)))
        .collect()
}

fn bin(chamber: &Chamber) -> TargetBin {
    let [width, height, depth] = chamber.sides;
    let mut bin = TargetBin::new(width, height, depth);
    bin.remove_filled_section(0);
    for section in &chamber.free {
        bin.push_available_bin_section_unchecked(bin_section(section));
    }
    bin
}

fn bin_section(section: &Section) -> BinSection {
    let [x, y, z] = section.at;
    BinSection::new(x, y, z, rect(&section.sides).into())
}

fn rect(sides: &[u32; 3]) -> RectToInsert {
    RectToInsert::new(sides[0], sides[1], sides[2])
}

fn at(location: &PackedLocation) -> [u32; 3] {
    [location.x(), location.y(), location.z()]
}

fn same_sections(left: &Bins, right: &Bins) -> bool {
    let sections = |bins: &Bins| -> Vec<Vec<BinSection>> {
        bins.values()
            .map(|bin| bin.available_bin_sections().clone())
            .collect()
    };
    sections(left) == sections(right)
}

/// The chamber records and sections as the crate shows them, then the word `stray`, which is 0 here.
fn put_tables(bins: &Bins, words: &mut Vec<u32>) {
    let chambers: Vec<Chamber> = bins
        .iter()
        .map(|(id, bin)| {
            let (sides, free) = Text::whole(&format!("{bin:?}"), Text::bin);
            Chamber {
                id: *id,
                sides,
                free,
            }
        })
        .collect();
    put_chambers(&chambers, words);
    words.push(0);
}
