//! The static library, beyond what `compare` tries: results that are too short, and boards with bits that do not count.
use oracle::linked::{answer, flags, UNTOLD};
use oracle::maker::Maker;
use oracle::Outcome;

#[test]
fn as_many_results_as_fit() {
    let mut maker = Maker::new(5);
    let (mut whole, mut part) = (Outcome::new(), Outcome::new());
    for _ in 0..20_000 {
        maker.make_any();
        let board = flags(maker.call.board);
        let mut results = [UNTOLD; 12];
        whole.lend(&maker.call);
        let number = answer(&maker.call, board, &mut whole, &mut results);
        assert_eq!(results[11], UNTOLD);
        for room in 0..12 {
            let mut few = [UNTOLD; 12];
            part.lend(&maker.call);
            assert_eq!(answer(&maker.call, board, &mut part, &mut few[..room]), number);
            assert_eq!(few[..room], results[..room]);
            assert!(few[room..].iter().all(|word| *word == UNTOLD));
            assert!(part.agrees(&whole));
        }
    }
}

#[test]
fn other_bits_of_a_board_do_not_count() {
    let mut maker = Maker::new(6);
    let (mut plain, mut marked) = (Outcome::new(), Outcome::new());
    for n in 0..20_000 {
        maker.make_any();
        let board = flags(maker.call.board);
        let (mut told, mut again) = ([UNTOLD; 11], [UNTOLD; 11]);
        plain.lend(&maker.call);
        marked.lend(&maker.call);
        let number = answer(&maker.call, board, &mut plain, &mut told);
        assert_eq!(answer(&maker.call, board | (n as u8) << 4, &mut marked, &mut again), number);
        assert_eq!(told, again);
        assert!(plain.agrees(&marked));
    }
}
