//! What is asked of bytes before they are appended agrees with the decoders, and with recovery.
use super::*;
use crate::{Log, Refusal};

fn recovery_of(tag: u32, bytes: &[u8]) -> Option<Refusal> {
    let mut log = Log::new(16, vec![0; 4096], 0);
    log.append_raw(tag, bytes).unwrap();
    log.recover(4, 0).err().map(|not| not.refused.refusal)
}

#[test]
fn payloads_and_commits_are_told() {
    let share = Payload::from(vec![Statement::Share(b"abc".to_vec())]).encode();
    let commit = Commit { commits: vec![CommitData::default()], state: b"abc".to_vec() }.encode();
    for bytes in [&share, &commit, &vec![0; 7], &vec![0; 8], &vec![0; 16], &vec![1; 100], &vec![]] {
        assert_eq!(is_payload(bytes), Payload::decode(bytes).is_some());
        assert_eq!(!is_payload(bytes), recovery_of(2, bytes) == Some(Refusal::Payload));
        assert_eq!(is_commit(bytes), Commit::decode(bytes).is_some());
        assert_eq!(!is_commit(bytes), recovery_of(5, bytes) == Some(Refusal::Commit));
    }
    assert!(is_payload(&share) && !is_payload(&share[..share.len() - 1]));
    assert!(is_commit(&commit) && !is_commit(&commit[..commit.len() - 1]));
}
