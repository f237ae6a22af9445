use super::{elements, filled, in_a_row, reference_at, Put, COUNT, OWNED, REFERENCE};
use crate::ffi::{self, EncodingWords};
use crate::BlockReference;

/// A leader that was committed, and the blocks committed with it.
#[derive(Clone, Debug, Default, PartialEq, Eq, Hash)]
pub struct CommitData {
    /// The leader's block.
    pub leader: BlockReference,
    /// The blocks committed with it, in the order of the record.
    pub sub_dag: Vec<BlockReference>,
}

impl CommitData {
    /// The bytes of the leader and its sub-dag.
    pub fn encode(&self) -> Vec<u8> {
        filled(self.size(), |out, answer| self.put(out, 0, answer)).expect(OWNED)
    }

    /// The leader and the sub-dag at the start of these bytes; what follows them is not looked at.
    pub fn decode(bytes: &[u8]) -> Option<Self> {
        commit_data_at(bytes, 0).map(|(data, _)| data)
    }
}

impl Put for CommitData {
    fn size(&self) -> usize {
        REFERENCE + COUNT + REFERENCE * self.sub_dag.len()
    }

    fn put(&self, out: &mut [u8], at: usize, answer: &mut EncodingWords) -> u8 {
        let row = in_a_row(&self.sub_dag);
        ffi::encode_commit_data(out, at, &self.leader.to_words(), &row, self.sub_dag.len() as u64, answer)
    }
}

/// The element of a commit's list at a place, and its end.
fn commit_data_at(bytes: &[u8], at: usize) -> Option<(CommitData, usize)> {
    let mut w = [0; 10];
    ffi::decode_commit_data(bytes, at, &mut w);
    if w[0] == 0 {
        return None;
    }
    let sub_dag = elements(bytes, (w[7] as usize, w[8] as usize), reference_at).collect();
    Some((CommitData { leader: BlockReference::at(&w, 1), sub_dag }, w[9] as usize))
}

/// What an entry of tag 5 holds: what was committed, and the committed state.
///
/// ```
/// use kadzhomir::{BlockReference, Commit, CommitData, Log};
///
/// let leader = BlockReference { authority: 2, round: 7, digest: [1; 32] };
/// let commit = Commit { commits: vec![CommitData { leader, sub_dag: vec![leader] }], state: b"state".to_vec() };
/// assert_eq!(Commit::decode(&commit.encode()), Some(commit.clone()));
///
/// let mut log = Log::new(16, vec![0; 4096], 0);
/// log.append_raw(5, &commit.encode())?;
/// let (store, recovered) = log.recover(4, 0)?;
/// assert_eq!(recovered.last_committed_leader(), Some(leader));
/// assert_eq!(&store.log().image()[recovered.committed_state().unwrap()], b"state");
/// # Ok::<(), Box<dyn std::error::Error>>(())
/// ```
#[derive(Clone, Debug, Default, PartialEq, Eq, Hash)]
pub struct Commit {
    /// The leaders in their order, the last one last.
    pub commits: Vec<CommitData>,
    /// The state's bytes, carried as they are.
    pub state: Vec<u8>,
}

impl Commit {
    /// The commit's bytes.
    pub fn encode(&self) -> Vec<u8> {
        let row = in_a_row(&self.commits);
        let (count, state) = (self.commits.len() as u64, &self.state[..]);
        let size = COUNT + row.len() + COUNT + state.len();
        filled(size, |out, answer| ffi::encode_commit(out, 0, &row, count, state, answer)).expect(OWNED)
    }

    /// The commit at the start of these bytes; what follows it is not looked at.
    pub fn decode(bytes: &[u8]) -> Option<Self> {
        let [_, place, number, state, len, _] = commit_words(bytes)?.map(|w| w as usize);
        Some(Self { commits: elements(bytes, (place, number), commit_data_at).collect(), state: bytes[state..][..len].to_vec() })
    }
}

pub(super) fn commit_words(bytes: &[u8]) -> Option<[u64; 6]> {
    let mut w = [0; 6];
    ffi::decode_commit(bytes, 0, &mut w);
    (w[0] != 0).then_some(w)
}
