//! Brute force over all packets of a small grid, for the tests: slow, and close to the definitions.

use std::collections::BTreeSet;

use crate::model::{Decision, Kind, Packet, Range, Region, Row, Source, FIELDS, TOPS};

/// For each field, the values at which some range starts or has just ended, and 0. The sources decide all
/// packets alike that lie between the same two of them.
pub fn grid(sources: &[&Source]) -> [Vec<u32>; FIELDS] {
    std::array::from_fn(|field| {
        let mut values = BTreeSet::from([0]);
        for region in sources.iter().flat_map(|source| source.regions()) {
            let Range { low, high } = region.0[field];
            values.insert(low);
            if high < TOPS[field] {
                values.insert(high + 1);
            }
        }
        values.into_iter().collect()
    })
}

/// All packets of a grid in their order.
pub fn packets(grid: &[Vec<u32>; FIELDS]) -> Vec<Packet> {
    let mut packets = vec![[0; FIELDS]];
    for field in 0..FIELDS {
        let longer = |packet: Packet| {
            grid[field].iter().map(move |&value| {
                let mut packet = packet;
                packet[field] = value;
                packet
            })
        };
        packets = packets.into_iter().flat_map(longer).collect();
    }
    packets
}

/// The table of a source: the decisions of all packets in order are cut into equal parts, one for each value
/// of the first field; two values are alike if their parts are equal.
pub fn rows(source: &Source) -> Vec<Row> {
    let grid = grid(&[source]);
    let decisions: Vec<Decision> = packets(&grid).iter().map(|packet| source.decide(packet)).collect();
    let mut rows = Vec::new();
    cut(&grid, 0, &decisions, Region::whole(), &mut rows);
    rows
}

fn cut(grid: &[Vec<u32>; FIELDS], field: usize, decisions: &[Decision], region: Region, rows: &mut Vec<Row>) {
    if field == FIELDS {
        rows.push(Row::new(region, decisions[0]));
        return;
    }
    let values = &grid[field];
    let parts: Vec<&[Decision]> = decisions.chunks(decisions.len() / values.len()).collect();
    let mut start = 0;
    for end in 1..=values.len() {
        if end < values.len() && parts[end] == parts[start] {
            continue;
        }
        let high = if end < values.len() { values[end] - 1 } else { TOPS[field] };
        let range = Range::new(values[start], high);
        cut(grid, field + 1, parts[start], region.with(field, range), rows);
        start = end;
    }
}

/// Whether rows are nested, by the definition.
pub fn is_nested(rows: &[Row]) -> bool {
    is_nested_from(0, &rows.iter().map(|row| row.region).collect::<Vec<_>>())
}

fn is_nested_from(field: usize, regions: &[Region]) -> bool {
    if field == FIELDS {
        return regions.len() == 1;
    }
    let mut next = Some(0);
    for group in regions.chunk_by(|a, b| a.0[field] == b.0[field]) {
        let Range { low, high } = group[0].0[field];
        if next != Some(low) || low > high || !is_nested_from(field + 1, group) {
            return false;
        }
        next = (high < TOPS[field]).then(|| high + 1);
    }
    next.is_none() && !regions.is_empty()
}

/// Whether rows begin some nested list: they do exactly if filling up the last range of each field, from the
/// last field to the first, makes a nested list of them.
fn begin_nested(rows: &[Row]) -> bool {
    let mut rows = rows.to_vec();
    for field in (0..FIELDS).rev() {
        let mut region = rows.last().map_or(Region::whole(), |row| row.region);
        let Range { low, high } = region.0[field];
        if high < TOPS[field] && low <= high {
            region.0[field] = Range::new(high + 1, TOPS[field]);
            (field + 1..FIELDS).for_each(|later| region.0[later] = Range::whole(later));
            rows.push(Row::new(region, 0));
        }
    }
    is_nested(&rows)
}

/// The first row where the rows so far begin no nested list, or the count of rows if the list ends short.
pub fn first_not_nested(rows: &[Row]) -> Option<usize> {
    let bad = (0..rows.len()).find(|&last| !begin_nested(&rows[..=last]));
    bad.or((!is_nested(rows)).then_some(rows.len()))
}

/// The lowest row of a nested list that starts a range alike its left neighbour: all packets that differ only
/// on that field, one in each of the two ranges, get equal decisions.
pub fn first_alike(kind: Kind, rows: &[Row]) -> Option<usize> {
    let source = Source::Table(kind, rows.to_vec());
    let grid = grid(&[&source]);
    (1..rows.len()).find(|&place| {
        let (left, right) = (&rows[place - 1].region, &rows[place].region);
        let field = (0..FIELDS).find(|&field| left.0[field] != right.0[field]).expect("no two have one region");
        let mut near = grid.clone();
        (0..=field).for_each(|earlier| near[earlier] = vec![right.0[earlier].low]);
        packets(&near).into_iter().all(|packet| {
            let mut other = packet;
            other[field] = left.0[field].low;
            source.decide(&packet) == source.decide(&other)
        })
    })
}
