/* The locks below the bells: the kit's Mutex, its Condvar, and dine's Gate over both.
   Each of THREADS threads locks the Mutex ROUNDS times. With GATE each passes the gate once instead, and one thread
   more opens it. With SPURIOUS=n a sleep in the kernel may end n times for no reason.

   A comment "of FILE: NAME, .." names the functions of the sources that the lines below it stand for. */
#ifndef THREADS
#define THREADS 3
#endif
#ifndef ROUNDS
#define ROUNDS 2
#endif
#ifndef SPURIOUS
#define SPURIOUS 0
#endif

/* What the word of a Mutex says. In FREE_FOR_SLEEPER a thread that has slept takes it. */
#define HELD 0
#define FREE 1
#define HELD_SLEEPER 2  /* held, and a thread may sleep */
#define HELD_ASKED 3    /* held, and a thread that slept twice asks for FREE_FOR_SLEEPER */
#define FREE_FOR_SLEEPER 4

byte word = FREE;
byte in_kernel, in_kernel_gate; /* the threads that sleep on the word of the Mutex, on that of the Condvar */
byte changes, sleepers;         /* the word of the Condvar, and how many threads wait at it */
bit opened;                       /* the signal of the Gate */
byte inside, ended;
byte spurious = SPURIOUS;

/* The kernel wakes one of those that sleep, if any does. */
inline wake_one(set) {
  if
  :: atomic { (set & 1) -> set = set & ~1 }
  :: atomic { (set & 2) -> set = set & ~2 }
  :: atomic { (set & 4) -> set = set & ~4 }
  :: atomic { (set & 8) -> set = set & ~8 }
  :: set == 0
  fi
}

/* The kernel lets a thread sleep if the word is as it was seen. */
inline sleep(at, seen_there, set) {
  if
  :: atomic { at == seen_there -> set = set | (1 << me) };
     if
     :: (set & (1 << me)) == 0
     :: atomic { spurious > 0 && (set & (1 << me)) -> spurious--; set = set & ~(1 << me) }
     fi
  :: at != seen_there
  fi
}

#define MAY_TAKE (seen == FREE || (seen == FREE_FOR_SLEEPER && slept > 0))
#ifdef BUG_TAKEN_BARE
#define TAKEN HELD
#else
#define TAKEN HELD_SLEEPER
#endif

/* Takes the lock: at once if it is free, and else by the loop that sleeps. */
inline lock() {
  slept = 0;
  if
  :: atomic { word == FREE -> word = HELD }; has = 1
  :: word != FREE -> has = 0
  fi;
  if
  :: has
  :: else ->
     seen = word;
     if
     :: seen == FREE -> if :: atomic { word == FREE -> word = HELD }; has = 1 :: word != FREE fi
     :: else
     fi;
     do
     :: has -> break
     :: !has && MAY_TAKE ->
        if :: atomic { word == seen -> word = TAKEN }; has = 1 :: word != seen -> seen = word fi
     :: !has && !MAY_TAKE ->
        wanted = (slept < 2 -> HELD_SLEEPER : HELD_ASKED); goes = 1;
        if
        :: seen < wanted ->
           d_step { found = word; if :: word == seen -> word = wanted :: else fi };
           if :: found != seen -> seen = found; goes = 0 :: else -> seen = wanted fi
        :: else
        fi;
        if
        :: goes -> sleep(word, seen, in_kernel); if :: slept < 3 -> slept++ :: else fi; seen = word
        :: else
        fi
     od
  fi;
  skip;
  d_step { has = 0; seen = 0; slept = 0; wanted = 0; found = 0; goes = 0 }
}
inline unlock() {
  if
  :: atomic { word == HELD -> word = FREE }
  :: word != HELD ->
     if :: atomic { word == HELD_SLEEPER -> word = FREE } :: word != HELD_SLEEPER -> word = FREE_FOR_SLEEPER fi;
#ifndef BUG_NO_WAKE
     wake_one(in_kernel)
#endif
  fi
}

proctype thread(byte me) {
  byte seen, slept, wanted, found, round, seen_changes; bit has, goes;
#ifdef GATE
  /* of gate.rt: Gate::pass */
  lock();
  do
  :: opened -> break
  :: !opened ->
     seen_changes = changes; unlock(); sleepers++; sleep(changes, seen_changes, in_kernel_gate); sleepers--; lock()
  od;
  unlock();
#else
  do
  :: round < ROUNDS -> lock(); d_step { inside++; assert(inside == 1) }; inside--; unlock(); round++
  :: else -> break
  od;
#endif
  ended++
}

#ifdef GATE
/* of gate.rt: Gate::send */
proctype teller(byte me) {
  byte seen, slept, wanted, found, waiting; bit has, goes;
  lock(); opened = 1;
#ifdef BUG_CHECKS_FIRST
  waiting = sleepers; changes++;
  if :: waiting > 0 -> in_kernel_gate = 0 :: else fi;
#else
  changes++;
  if :: sleepers > 0 -> in_kernel_gate = 0 :: else fi;
#endif
  unlock(); ended++
}
#define ALL (THREADS + 1)
#else
#define ALL THREADS
#endif

init {
  byte i;
  atomic {
    do :: i < THREADS -> run thread(i); i++ :: else -> break od;
#ifdef GATE
    run teller(THREADS)
#endif
  }
  ended == ALL; assert(word == FREE)
}
