//! An independent counter, written from paper 01 alone, against which the library is held. It looks around at no cell:
//! it follows the water down.

/// Paper 01, "Arrows and land".
#[derive(Clone, Copy)]
pub enum Compass {
    East,
    SouthEast,
    South,
    SouthWest,
    West,
    NorthWest,
    North,
    NorthEast,
}

pub enum Meaning {
    Arrow(Compass),
    Absent,
    Bad,
}

pub fn meaning(code: u8) -> Meaning {
    match code {
        1 => Meaning::Arrow(Compass::East),
        2 => Meaning::Arrow(Compass::SouthEast),
        4 => Meaning::Arrow(Compass::South),
        8 => Meaning::Arrow(Compass::SouthWest),
        16 => Meaning::Arrow(Compass::West),
        32 => Meaning::Arrow(Compass::NorthWest),
        64 => Meaning::Arrow(Compass::North),
        128 => Meaning::Arrow(Compass::NorthEast),
        0 | 255 => Meaning::Absent,
        _ => Meaning::Bad,
    }
}

/// The place next to this one in that direction, if the sheet has it.
pub fn neighbour(rows: usize, cols: usize, place: usize, direction: Compass) -> Option<usize> {
    let (row, col) = (place / cols, place % cols);
    let north = if row == 0 { None } else { Some(row - 1) };
    let south = if row == rows - 1 { None } else { Some(row + 1) };
    let west = if col == 0 { None } else { Some(col - 1) };
    let east = if col == cols - 1 { None } else { Some(col + 1) };
    let (row, col) = match direction {
        Compass::East => (Some(row), east),
        Compass::SouthEast => (south, east),
        Compass::South => (south, Some(col)),
        Compass::SouthWest => (south, west),
        Compass::West => (Some(row), west),
        Compass::NorthWest => (north, west),
        Compass::North => (north, Some(col)),
        Compass::NorthEast => (north, east),
    };
    Some(row? * cols + col?)
}

/// Where the water of a cell goes.
#[derive(Clone, Copy)]
pub enum Water {
    /// An absent cell has none.
    None,
    /// Off the sheet or onto an absent cell.
    Out,
    /// Onto the land cell at this place. 32 bits hold every place of a sheet and keep large sheets in memory.
    To(u32),
}

/// Where the water of every cell goes, or the first place with a bad code.
pub fn waters(rows: usize, cols: usize, grid: &[u8]) -> Result<Vec<Water>, usize> {
    let mut waters = Vec::with_capacity(grid.len());
    for (place, &code) in grid.iter().enumerate() {
        waters.push(match meaning(code) {
            Meaning::Bad => return Err(place),
            Meaning::Absent => Water::None,
            Meaning::Arrow(direction) => match neighbour(rows, cols, place, direction) {
                Some(next) if !matches!(meaning(grid[next]), Meaning::Absent) => {
                    Water::To(next as u32)
                }
                _ => Water::Out,
            },
        });
    }
    Ok(waters)
}

/// The smallest place on any loop, with the number of cells of its loop: by a walk that colours cells white, grey and
/// black.
fn first_loop(waters: &[Water]) -> Option<(usize, usize)> {
    #[derive(Clone, Copy, PartialEq)]
    enum Colour {
        /// Not walked yet.
        White,
        /// On the present walk.
        Grey,
        /// Walked before.
        Black,
    }
    let mut colours = vec![Colour::White; waters.len()];
    let mut first: Option<(usize, usize)> = None;
    let mut walk: Vec<usize> = Vec::new();
    for start in 0..waters.len() {
        walk.clear();
        let mut place = start;
        while colours[place] == Colour::White {
            colours[place] = Colour::Grey;
            walk.push(place);
            match waters[place] {
                Water::To(next) => place = next as usize,
                Water::None | Water::Out => break,
            }
        }
        // A walk that comes back to itself has found a loop: from the cell that it came back to. A walk that ends at an
        // outlet stands on a grey cell too, but its water goes no further.
        if colours[place] == Colour::Grey && matches!(waters[place], Water::To(_)) {
            let begin = walk.iter().position(|&walked| walked == place);
            let round = &walk[begin.expect("a grey cell is on the walk")..];
            let smallest = *round.iter().min().expect("the loop has this cell");
            if first.is_none_or(|(place, _)| smallest < place) {
                first = Some((smallest, round.len()));
            }
        }
        for &walked in &walk {
            colours[walked] = Colour::Black;
        }
    }
    first
}

/// The two ways to count a sheet without loops.
#[derive(Clone, Copy, Debug)]
pub enum Way {
    /// Follow the water of each cell down and add 1 to every cell passed: the plainest way, too slow where rivers are
    /// long.
    FollowEach,
    /// Take the cells by their distance from the outlet, farthest first, and hand each sum on.
    FarthestFirst,
}

fn follow_each(waters: &[Water]) -> Vec<u32> {
    let mut counts = vec![0; waters.len()];
    for start in 0..waters.len() {
        if matches!(waters[start], Water::None) {
            continue;
        }
        let mut place = start;
        counts[place] += 1;
        while let Water::To(next) = waters[place] {
            place = next as usize;
            counts[place] += 1;
        }
    }
    counts
}

fn farthest_first(waters: &[Water]) -> Vec<u32> {
    // The distance of a land cell is the number of cells from it to its outlet, both included; 0 is not known yet.
    let mut distances = vec![0u32; waters.len()];
    let mut walk: Vec<usize> = Vec::new();
    let mut farthest = 0;
    for start in 0..waters.len() {
        if matches!(waters[start], Water::None) {
            continue;
        }
        let mut place = start;
        let mut known = 0;
        loop {
            if distances[place] != 0 {
                known = distances[place];
                break;
            }
            walk.push(place);
            match waters[place] {
                Water::To(next) => place = next as usize,
                Water::None | Water::Out => break,
            }
        }
        while let Some(walked) = walk.pop() {
            known += 1;
            distances[walked] = known;
            farthest = farthest.max(known);
        }
    }

    // The land cells put in order of their distance: how many there are of each, where each distance begins, then fill.
    let mut begins = vec![0usize; farthest as usize + 2];
    for &distance in &distances {
        begins[distance as usize + 1] += 1;
    }
    for distance in 1..begins.len() {
        begins[distance] += begins[distance - 1];
    }
    let mut order = vec![0u32; waters.len()];
    for (place, &distance) in distances.iter().enumerate() {
        order[begins[distance as usize]] = place as u32;
        begins[distance as usize] += 1;
    }

    let mut counts = vec![0u32; waters.len()];
    for &place in order.iter().rev() {
        let place = place as usize;
        if matches!(waters[place], Water::None) {
            continue;
        }
        counts[place] += 1;
        if let Water::To(next) = waters[place] {
            counts[next as usize] += counts[place];
        }
    }
    counts
}

/// What a lent buffer holds after the call.
pub enum After<T> {
    AsLent,
    Holds(Vec<T>),
}

impl<T> After<T> {
    /// The content after the call, given what was lent.
    pub fn given<'a>(&'a self, lent: &'a [T]) -> &'a [T] {
        match self {
            After::AsLent => lent,
            After::Holds(content) => content,
        }
    }
}

/// The whole outcome of an operation: the reply's number in the paper, its values (0 where there is none), and the grid
/// and the counts after.
pub struct Outcome {
    pub number: u32,
    pub value: [u64; 6],
    pub grid: After<u8>,
    pub counts: After<u32>,
}

/// The values of a reply, 0 where there is none.
pub fn values(given: &[usize]) -> [u64; 6] {
    let mut value = [0; 6];
    for (slot, &number) in value.iter_mut().zip(given) {
        *slot = number as u64;
    }
    value
}

/// The values of a reply as the safe functions tell them.
pub fn sizes(value: [u64; 6]) -> [usize; 6] {
    value.map(|value| usize::try_from(value).expect("a size has 64 bits"))
}

fn refusal(number: u32, given: &[usize]) -> Outcome {
    Outcome {
        number,
        value: values(given),
        grid: After::AsLent,
        counts: After::AsLent,
    }
}

/// The outcome of counting, by the way that the sheet's size allows.
pub fn count(rows: usize, cols: usize, grid: &[u8], counts_len: usize) -> Outcome {
    let way = if grid.len() <= 1600 {
        Way::FollowEach
    } else {
        Way::FarthestFirst
    };
    count_by(way, rows, cols, grid, counts_len)
}

/// The outcome of counting, in the order of refusals of paper 01: 1, 2, 3, 4.
pub fn count_by(way: Way, rows: usize, cols: usize, grid: &[u8], counts_len: usize) -> Outcome {
    if !(1..=4096).contains(&rows) || !(1..=4096).contains(&cols) {
        return refusal(1, &[]);
    }
    if grid.len() != rows * cols || counts_len != rows * cols {
        return refusal(2, &[]);
    }
    let waters = match waters(rows, cols, grid) {
        Ok(waters) => waters,
        Err(place) => return refusal(3, &[place]),
    };
    if let Some((place, length)) = first_loop(&waters) {
        return Outcome {
            number: 4,
            value: values(&[place, length]),
            grid: After::AsLent,
            counts: After::Holds(vec![0; waters.len()]),
        };
    }
    let counts = match way {
        Way::FollowEach => follow_each(&waters),
        Way::FarthestFirst => farthest_first(&waters),
    };
    let absent = |water: &&Water| matches!(water, Water::None);
    let outlet = |water: &&Water| matches!(water, Water::Out);
    let land = waters.len() - waters.iter().filter(absent).count();
    let outlets = waters.iter().filter(outlet).count();
    let greatest = counts.iter().copied().max().unwrap_or(0) as usize;
    Outcome {
        number: 0,
        value: values(&[land, outlets, greatest]),
        grid: After::AsLent,
        counts: After::Holds(counts),
    }
}

/// The first place whose count is not what the counts of the sheet's cells, poured onto the cells below them, make it.
fn first_wrong(waters: &[Water], counts: &[u32]) -> Option<usize> {
    let mut poured = vec![0u64; waters.len()];
    for (water, &count) in waters.iter().zip(counts) {
        if let Water::To(next) = water {
            poured[*next as usize] += u64::from(count);
        }
    }
    (0..waters.len()).find(|&place| {
        let right = match waters[place] {
            Water::None => 0,
            Water::Out | Water::To(_) => 1 + poured[place],
        };
        u64::from(counts[place]) != right
    })
}

/// The outcome of checking, in the order of refusals of paper 01: 1, 2, 3, 5.
pub fn check(rows: usize, cols: usize, grid: &[u8], counts: &[u32]) -> Outcome {
    if !(1..=4096).contains(&rows) || !(1..=4096).contains(&cols) {
        return refusal(1, &[]);
    }
    if grid.len() != rows * cols || counts.len() != rows * cols {
        return refusal(2, &[]);
    }
    match waters(rows, cols, grid) {
        Err(place) => refusal(3, &[place]),
        Ok(waters) => match first_wrong(&waters, counts) {
            Some(place) => refusal(5, &[place]),
            None => refusal(0, &[]),
        },
    }
}

/// The outcome of mending, in the order of refusals of paper 01: 1, 2, 3, 5, 6, 7, 4. Nothing is mended here: the
/// changed grid is counted afresh.
pub fn mend(
    rows: usize,
    cols: usize,
    grid: &[u8],
    counts: &[u32],
    place: usize,
    code: u8,
) -> Outcome {
    let checked = check(rows, cols, grid, counts);
    if checked.number != 0 {
        return checked;
    }
    if place >= grid.len() {
        return refusal(6, &[]);
    }
    if matches!(meaning(code), Meaning::Bad) {
        return refusal(7, &[]);
    }
    let mut changed = grid.to_vec();
    changed[place] = code;
    let afresh = count(rows, cols, &changed, counts.len());
    match afresh.number {
        0 => Outcome {
            number: 0,
            value: values(&[]),
            grid: After::Holds(changed),
            counts: afresh.counts,
        },
        4 => Outcome {
            counts: After::AsLent,
            ..afresh
        },
        other => panic!("the changed grid has reply {other}, though its shape and codes are good"),
    }
}
