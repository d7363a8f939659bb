/* The turn protocol of a shared book, for Spin: how workers take the turn, sleep and are woken.

   Each step on shared memory quotes the line of crates/shared_books/src/turns that it stands for.
   `tests/model/run` compares the quoted lines with the code. N workers make V visits each.

   Two things are wrong in a run, and Spin looks for both in every order of the steps:
   - two workers have the book at once: an assertion fails;
   - a worker sleeps and nobody is left to wake it: an invalid end state.

   A word CLEARS_LATE, KEEPS_THE_WAKE, LOOKS_ONCE or FULL_WAKES_NOBODY makes a wrong protocol. */

#ifndef N
#define N 3    /* workers, 2 to 4 */
#endif
#ifndef V
#define V 2    /* visits of each worker */
#endif
#ifndef FULL
#define FULL 200    /* the turn word of a book that takes no more visits; 200 is never reached */
#endif
#ifndef RETURNS
#define RETURNS 0    /* how often in a run a worker may stop sleeping without a wake */
#endif

byte turn_word = 0;    /* 2k: k visits are counted. 2k + 1: a worker has the turn, too */
bool asleep = false;
byte sleepers = 0;
bool parked[N];        /* what the system knows of the workers that sleep at the turn word */
byte returns = RETURNS;    /* how often a worker may still stop sleeping without a wake */
byte with_book = 0;    /* how many workers have the book */

#if N == 2
#define NONE_PARKED (!parked[0] && !parked[1])
#elif N == 3
#define NONE_PARKED (!parked[0] && !parked[1] && !parked[2])
#else
#define NONE_PARKED (!parked[0] && !parked[1] && !parked[2] && !parked[3])
#endif

/* The system wakes one of those that sleep, whichever it likes, or nobody if nobody sleeps. */
inline wake_one() {
    if
    :: atomic { parked[0] -> parked[0] = false }
    :: atomic { parked[1] -> parked[1] = false }
#if N > 2
    :: atomic { parked[2] -> parked[2] = false }
#endif
#if N > 3
    :: atomic { parked[3] -> parked[3] = false }
#endif
    :: atomic { NONE_PARKED -> skip }
    fi
}

/* Takes the turn if the turn word is still `word`, and then has the book. */
inline try_take(word) {
    atomic {
        /* turn_word.rt: .compare_exchange::<Takes>(seat, 0, found, found + 1); */
        if
        :: turn_word == word -> turn_word = word + 1; has_turn = true; number = word / 2
        :: else
        fi
    }
    if
    :: has_turn ->
        /* turn_word.rt: self.table.shared.exchange(seat, 0, None) */
        with_book++;
        assert(with_book == 1)
    :: else
    fi
}

/* Looks at the turn word, any number of times but once at least, and then sleeps. */
inline rest() {
    has_changed = false;
    do
    :: if
       /* waiting.rt: if self.table.shared.peek(0) != found { */
       :: turn_word != found -> has_changed = true; break
       /* A look at `sleepers` decides only whether to look again: both are tried here.
          waiting.rt: if self.sleepers.load(Ordering::SeqCst) > 0 { */
       :: else -> if :: skip :: break fi
       fi
    od;
    if
    :: has_changed
    :: else ->
        /* waiting.rt: self.sleepers.fetch_add(1, Ordering::SeqCst); */
        sleepers++;
        /* waiting.rt: self.asleep.store(true, Ordering::SeqCst); */
        asleep = true;
        /* The system compares and lets the worker sleep in one step.
           waiting.rt: self.table.shared.park(rt, 0, (found & 0xffff_ffff) as u32); */
        atomic { if :: turn_word == found -> parked[id] = true :: else fi }
        if
        :: !parked[id]
        :: atomic { returns > 0 && parked[id] -> returns--; parked[id] = false }
        fi;
        /* waiting.rt: self.sleepers.fetch_sub(1, Ordering::SeqCst); */
        sleepers--;
        has_slept = true
    fi
}

/* Waits for the turn. At the end the worker has it, or has found the book full. */
inline wait_and_take() {
    has_slept = false;
    do
    :: has_turn || is_full -> break
    :: else ->
        /* turn_word.rt: self.table.shared.load::<Looks>(seat, 0) */
        found = turn_word;
        if
        :: found == FULL ->
#ifndef FULL_WAKES_NOBODY
            /* waiting.rt: self.table.shared.wake_one(0); */
            wake_one();
#endif
            is_full = true
        :: found != FULL && found % 2 == 1 -> rest()
        :: else ->
            try_take(found);
            if
            :: has_turn && has_slept ->
#ifndef KEEPS_THE_WAKE
                /* waiting.rt: if slept && self.sleepers.load(Ordering::SeqCst) > 0 { */
                if
                :: sleepers > 0 ->
                    /* waiting.rt: self.asleep.store(true, Ordering::SeqCst); */
                    asleep = true
                :: else
                fi
#else
                skip
#endif
            :: else
            fi
        fi
    od
}

/* Puts the book back and gives the turn back. */
inline give() {
    /* turn_word.rt: match self.table.shared.exchange(seat, 0, Some(book)) { */
    with_book--;
    /* turn_word.rt: let slept = self.asleep.load(Ordering::SeqCst); */
    was_asleep = asleep;
#ifdef CLEARS_LATE
    turn_word = 2 * number + 2;
#endif
    if
    /* turn_word.rt: self.asleep.store(false, Ordering::SeqCst); */
    :: was_asleep -> asleep = false
    :: else
    fi;
#ifndef CLEARS_LATE
    /* turn_word.rt: self.table.shared.store::<Gives>(seat, 0, 2 * number + 2); */
    turn_word = 2 * number + 2;
#endif
    if
#ifdef LOOKS_ONCE
    :: was_asleep -> wake_one()
#else
    /* turn_word.rt: if slept || self.asleep.load(Ordering::SeqCst) { */
    :: was_asleep || asleep ->
        /* turn_word.rt: self.table.shared.wake_one(0); */
        wake_one()
#endif
    :: else
    fi
}

/* A worker makes its visits, one after another, until the book is full. */
proctype worker(byte id) {
    byte found, number, expected, visits;
    bool has_turn, is_full, has_slept, has_changed, was_asleep;
    do
    :: visits < V && !is_full ->
        has_turn = false;
        if
        :: 2 * expected < FULL -> try_take(2 * expected)
        :: else
        fi;
        wait_and_take();
        if
        :: has_turn ->
            give();
            expected = number + 1;
            visits++
        :: else
        fi
    :: else -> break
    od
}

init {
    atomic {
        byte i = 0;
        do
        :: i < N -> run worker(i); i++
        :: else -> break
        od
    }
}
