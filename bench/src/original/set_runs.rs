//! Mixed calls on sets, also as values. A word holds a command in its low byte and an element above it.
use super::runs::of_index;
use vecmap::VecSet;

#[inline(never)]
pub fn set_calls(_: &[u64], words: &[u64], rounds: u64) -> u64 {
    rounds!(rounds, |sum, round| {
        let mut set: VecSet<u64> = VecSet::new();
        for word in words {
            let word = *word;
            let item = word >> 8;
            let answer = match word & 255 {
                0..=29 => u64::from(set.insert(item)),
                30..=69 => u64::from(set.contains(&item)),
                70..=84 => of_index(set.get_index_of(&item)),
                85..=88 => set.len() as u64,
                89..=98 => u64::from(set.remove(&item)),
                _ => set.to_vec().len() as u64,
            };
            sum = sum.wrapping_mul(31).wrapping_add(answer ^ round);
        }
    })
}

/// Calls on a set, as values, as `vecmap::SetCommand` has them.
#[allow(dead_code)]
enum SetCommand<T> {
    Insert(T),
    Replace(T),
    Get(T),
    GetIndex(usize),
    IndexOf(T),
    Contains(T),
    First,
    Last,
    Len,
    Remove(T),
    Take(T),
    SwapRemove(T),
    SwapTake(T),
    RemoveIndex(usize),
    SwapRemoveIndex(usize),
    Pop,
    SwapIndices(usize, usize),
    Truncate(usize),
    Clear,
    Reverse,
    Append(VecSet<T>),
    SplitOff(usize),
    ToVec,
    Equals(VecSet<T>),
    IsSubset(VecSet<T>),
    IsSuperset(VecSet<T>),
    IsDisjoint(VecSet<T>),
    Intersect(VecSet<T>),
    Unite(VecSet<T>),
    Exclusive(VecSet<T>),
    Subtract(VecSet<T>),
}

/// Replies, as `vecmap::SetReply` has them.
#[allow(dead_code)]
enum SetReply<T> {
    Truth(bool),
    Item(Option<T>),
    Place(Option<usize>),
    Number(usize),
    Done,
    Made(VecSet<T>),
    Items(Vec<T>),
    OutOfRange,
    NoMemory,
}

fn step<T: Eq + Clone>(set: &mut VecSet<T>, command: SetCommand<T>) -> SetReply<T> {
    match command {
        SetCommand::Insert(item) => SetReply::Truth(set.insert(item)),
        SetCommand::Replace(item) => {
            let old = set.take(&item);
            set.insert(item);
            SetReply::Item(old)
        }
        SetCommand::Get(item) => SetReply::Item(set.get(&item).cloned()),
        SetCommand::GetIndex(index) => SetReply::Item(set.get_index(index).cloned()),
        SetCommand::IndexOf(item) => SetReply::Place(set.get_index_of(&item)),
        SetCommand::Contains(item) => SetReply::Truth(set.contains(&item)),
        SetCommand::First => SetReply::Item(set.first().cloned()),
        SetCommand::Last => SetReply::Item(set.last().cloned()),
        SetCommand::Len => SetReply::Number(set.len()),
        SetCommand::Remove(item) => SetReply::Truth(set.remove(&item)),
        SetCommand::Take(item) => SetReply::Item(set.take(&item)),
        SetCommand::SwapRemove(item) => SetReply::Truth(set.swap_remove(&item)),
        SetCommand::SwapTake(item) => SetReply::Item(set.swap_take(&item)),
        SetCommand::RemoveIndex(index) => {
            let is_within = index < set.len();
            SetReply::Item(is_within.then(|| set.remove_index(index)))
        }
        SetCommand::SwapRemoveIndex(index) => {
            let is_within = index < set.len();
            SetReply::Item(is_within.then(|| set.swap_remove_index(index)))
        }
        SetCommand::Pop => SetReply::Item(set.pop()),
        SetCommand::SwapIndices(a, b) => {
            if a >= set.len() || b >= set.len() {
                return SetReply::OutOfRange;
            }
            set.swap_indices(a, b);
            SetReply::Done
        }
        SetCommand::Truncate(len) => {
            set.truncate(len);
            SetReply::Done
        }
        SetCommand::Clear => {
            set.clear();
            SetReply::Done
        }
        SetCommand::Reverse => {
            set.reverse();
            SetReply::Done
        }
        SetCommand::Append(mut other) => {
            set.append(&mut other);
            SetReply::Done
        }
        SetCommand::SplitOff(index) => {
            if index > set.len() {
                return SetReply::OutOfRange;
            }
            SetReply::Made(set.split_off(index))
        }
        SetCommand::ToVec => SetReply::Items(set.to_vec()),
        SetCommand::Equals(other) => SetReply::Truth(*set == other),
        SetCommand::IsSubset(other) => SetReply::Truth(set.is_subset(&other)),
        SetCommand::IsSuperset(other) => SetReply::Truth(set.is_superset(&other)),
        SetCommand::IsDisjoint(other) => SetReply::Truth(set.is_disjoint(&other)),
        SetCommand::Intersect(other) => SetReply::Made(&*set & &other),
        SetCommand::Unite(other) => SetReply::Made(&*set | &other),
        SetCommand::Exclusive(other) => SetReply::Made(&*set ^ &other),
        SetCommand::Subtract(other) => SetReply::Made(&*set - &other),
    }
}

// Runs the commands in order and returns their replies.
fn replies_to<T: Eq + Clone>(
    set: &mut VecSet<T>,
    commands: Vec<SetCommand<T>>,
) -> Vec<SetReply<T>> {
    let mut replies = Vec::with_capacity(commands.len());
    for command in commands {
        replies.push(step(set, command));
    }
    replies
}

fn command(word: u64) -> SetCommand<u64> {
    let item = word >> 8;
    match word & 255 {
        0..=29 => SetCommand::Insert(item),
        30..=69 => SetCommand::Contains(item),
        70..=84 => SetCommand::IndexOf(item),
        85..=88 => SetCommand::Len,
        89..=98 => SetCommand::Remove(item),
        _ => SetCommand::ToVec,
    }
}

fn of_reply(reply: &SetReply<u64>) -> u64 {
    match reply {
        SetReply::Truth(truth) => u64::from(*truth),
        SetReply::Place(place) => of_index(*place),
        SetReply::Number(n) => *n as u64,
        SetReply::Items(items) => items.len() as u64,
        _ => u64::MAX,
    }
}

#[inline(never)]
pub fn set_run(_: &[u64], words: &[u64], rounds: u64) -> u64 {
    rounds!(rounds, |sum, round| {
        let mut set: VecSet<u64> = VecSet::new();
        let mut commands = Vec::with_capacity(words.len());
        for word in words {
            commands.push(command(*word));
        }
        let replies = replies_to(&mut set, commands);
        for reply in replies.iter() {
            sum = sum.wrapping_mul(31).wrapping_add(of_reply(reply) ^ round);
        }
    })
}
