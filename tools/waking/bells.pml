/* Waking in a run of dine, on small plans: the sites, their links, their bells, and what the kernel does for them.
   README.md says what is asserted and what is left out.

   A step on memory that threads share is one step here. What a thread does alone is one step too (d_step).
   A comment "of FILE: NAME, .." names the functions of the sources that the lines below it stand for.
   tools/model compares these names with the sources. */

/* The plan: N sites, E edges, at most D edges at a site. JOBS0 to JOBS3 are the jobs of each site. */
#ifdef PAIR
#define N 2
#define E 1
#define D 1
#endif
#if defined(PATH) || defined(STAR_LOW) || defined(STAR_HIGH)
#define N 3
#define E 2
#define D 2
#endif
#ifdef TRIANGLE
#define N 3
#define E 3
#define D 2
#endif
#ifdef STAR4_HIGH
#define N 4
#define E 3
#define D 3
#endif
#ifndef JOBS0
#define JOBS0 1
#endif
#ifndef JOBS1
#define JOBS1 1
#endif
#ifndef JOBS2
#define JOBS2 1
#endif
#ifndef JOBS3
#define JOBS3 1
#endif

/* The letters, and below them the events that put none. */
#define NONE 0
#define REQUEST 1
#define FORK 2
#define DONE 3
#define CLOSE 4
#define BEGIN 10
#define HUNGRY 11

/* What the word of a Parker says. */
#define EMPTY 0
#define NOTIFIED 1
#define PARKED 2

/* How many rings a bell holds for each ringer, as RINGS_EACH in bell.rt says, and how many letters a link. */
#ifndef RINGS_EACH
#define RINGS_EACH 4
#endif
#ifndef LINK_CAPACITY
#define LINK_CAPACITY 4
#endif
#ifndef SPURIOUS
#define SPURIOUS 0
#endif
/* The sites that are polite, a bit for each. The others are eager. */
#ifndef POLITE
#define POLITE 0
#endif
/* Those of them that are patient. */
#ifndef PATIENT
#define PATIENT 0
#endif

#define BIT(i) (1 << (i))
/* of bell.rt: room_of */
#define CAPACITY(s) (RINGS_EACH * degree[s])

chan link[2 * E] = [LINK_CAPACITY] of { byte }; /* 2e leads to the higher end of edge e, 2e+1 to the lower */
chan bell[N] = [RINGS_EACH * D] of { byte };    /* of which CAPACITY places are used */

/* The graph. At place i of site s: the neighbour, both links, and the place that the neighbour gives this edge. */
byte degree[N];
byte neighbour[N * D], outgoing[N * D], incoming[N * D], place_there[N * D];
#define AT(i) (me * D + (i))

/* Of each site: the lock around its SleepState, and what SleepState says */
bit locked[N];
bit asleep[N]; byte wants_requests[N]; byte wants_forks[N]; byte room[N];
/* .. the word of its Parker, and whether its thread sleeps in the kernel */
byte parker[N]; bit in_kernel[N];
/* .. and whether it eats */
bit eating[N];

byte spurious = SPURIOUS; /* how many times more a sleep in the kernel may end for no reason */
byte ended = 0;           /* sites that have ended */

#define LOCK(s) atomic { locked[s] == 0 -> locked[s] = 1 }
#define UNLOCK(s) locked[s] = 0

/* of backoff.rt: send, receive; of ring.rt: RingLane::put, RingLane::take
   The asserts say that no put and no take ever waits, whichever kind of links it is. */
#define PUT(k) assert(nfull(link[outgoing[AT(i)]])); link[outgoing[AT(i)]] ! k
#define TAKE(i) assert(nempty(link[incoming[AT(i)]])); link[incoming[AT(i)]] ? kind

/* The letter that comes next at place i is put off: the fork there is here and clean, none there is put off, and it is a
   Request. Of a site that may resign the source takes it at once.
   of running.rt: puts_off; of site.rt: SiteCore::may_put_off; of places.rt: Place::may_put_off,
   ForkSlot::is_clean_in_hand */
#ifdef BUG_PUTS_OFF_ALL
#define PUTS_OFF(i) (!(put_off & BIT(i)) && nempty(link[incoming[AT(i)]]))
#elif defined(NEVER_PUTS_OFF)
#define PUTS_OFF(i) false
#else
#define PUTS_OFF(i) (!((put_off | away | dirty) & BIT(i)) && link[incoming[AT(i)]] ? [REQUEST])
#endif

/* A letter is taken only after its number was heard. So with MERGE it is put in the step that sends its number, and
   taken in the step that hears it, which leads to the same ends through fewer states. */
#ifdef MERGE
#define SEND(s, number) atomic { len(bell[s]) < CAPACITY(s) -> PUT(kind); bell[s] ! number }
#define HEAR atomic { nempty(bell[me]) -> bell[me] ? number; if :: PUTS_OFF(number) :: else -> TAKE(number) fi }
#define RECALL atomic { recall(); TAKE(number) }
#define PUT_BEFORE
#define TAKE_AFTER
#else
#define SEND(s, number) atomic { len(bell[s]) < CAPACITY(s) -> bell[s] ! number }
#define HEAR atomic { nempty(bell[me]) -> bell[me] ? number }
#define RECALL recall()
#define PUT_BEFORE PUT(kind);
#define TAKE_AFTER TAKE(number);
#endif

/* With FAULT a site may run out of memory before any event, and then breaks off; with FAULTS=n that happens n times at
   most. So does a site that takes a Close before both ends have said Done. */
#ifdef FAULTS
byte faults = FAULTS;
#define MAY_BREAK if :: true :: atomic { faults > 0 -> faults--; goto broken } fi
#else
#ifdef FAULT
#define MAY_BREAK if :: true :: goto broken fi
#else
#define MAY_BREAK skip
#endif
#endif

/* Wakes the thread of a bell: a swap, and a call of the kernel if the thread is parked there.
   of sleeper.rt: Waker::unpark; of counted_parker.rt: CountedUnparker::unpark */
inline unpark(s) {
#ifdef BUG_NO_TOKEN
  d_step { word = parker[s]; if :: word == PARKED -> parker[s] = NOTIFIED :: else fi };
#else
  d_step { word = parker[s]; parker[s] = NOTIFIED };
#endif
  if
  :: word == PARKED -> in_kernel[s] = 0
  :: else
  fi
}

/* of wants.rt: Wants::has, Awaited::has */
#ifdef BUG_FORKS
#define LAST_FORK(s) (wants_forks[s] == 0)
#else
#define LAST_FORK(s) (wants_forks[s] <= 1)
#endif
#ifdef BUG_NO_REQUEST
#define WANTED_REQUEST(s, number) false
#else
#define WANTED_REQUEST(s, number) (wants_requests[s] & BIT(number))
#endif
#ifdef BUG_NO_DONE
#define ALWAYS(k) (k == CLOSE)
#else
#ifdef BUG_NO_CLOSE
#define ALWAYS(k) (k == DONE)
#else
#define ALWAYS(k) (k == DONE || k == CLOSE)
#endif
#endif
#ifdef BUG_NO_FULL
#define LAST_PLACE(s) false
#else
#define LAST_PLACE(s) (room[s] <= 1)
#endif
#define WAKES(s, number, k) ((k == REQUEST && WANTED_REQUEST(s, number)) || \
  (k == FORK && LAST_FORK(s)) || ALWAYS(k) || LAST_PLACE(s))

/* of sleeper.rt: SleepState::wake */
#define WAKE(s) asleep[s] = 0; wants_requests[s] = 0; wants_forks[s] = 0; room[s] = 0

/* Notes a ring under the lock, and sets `wakes` if the bell has to be woken.
   of sleeper.rt: SleepState::note; of wants.rt: Wants::note, Awaited::note */
inline note(s, number, k) {
  d_step {
    wakes = 0;
    if
    :: asleep[s] && WAKES(s, number, k) -> wakes = 1; WAKE(s)
    :: asleep[s] && !WAKES(s, number, k) ->
#ifndef BUG_NO_COUNT
       if :: k == FORK && wants_forks[s] > 0 -> wants_forks[s]-- :: else fi;
#endif
       if :: room[s] > 0 -> room[s]-- :: else fi
    :: !asleep[s]
    fi
  }
}

/* Rings a neighbour's bell for a letter, and wakes the thread if it has to.
   of Runs.antt: RingsBell, WakesThread
   of bell.rt: Ringer::ring_for, Ringer::sound_or_wait, Ringer::sound, send_and_note; of sleeper.rt: Waker::wake_if */
inline ring_for(s, number, k) {
#ifdef BUG_SEND_AFTER
  LOCK(s); note(s, number, k); UNLOCK(s);
  SEND(s, number);
  if :: wakes -> unpark(s) :: else fi
#else
#ifdef BUG_SEND_BEFORE
  SEND(s, number);
  LOCK(s); note(s, number, k); UNLOCK(s);
  if :: wakes -> unpark(s) :: else fi
#else
  LOCK(s);
  if
  :: SEND(s, number); note(s, number, k); UNLOCK(s);
     if :: wakes -> unpark(s) :: else fi
  :: len(bell[s]) == CAPACITY(s); UNLOCK(s); ring(s, number)
  fi
#endif
#endif
}

/* Rings a bell that was full: waits for a place, and wakes the bell whatever it wants. Four places for each ringer are
   always enough, so that this is never reached then.
   of bell.rt: Ringer::send, Ringer::ring, wake_and_note */
inline ring(s, number) {
  assert(RINGS_EACH < 4);
  SEND(s, number);
  LOCK(s); d_step { wakes = asleep[s]; WAKE(s) }; UNLOCK(s);
  if :: wakes -> unpark(s) :: else fi
}

/* Sets `kind` to the site's next event and `i` to its place, and does it in the site.
   of next.rt: SiteCore::next_event, SiteCore::next_phase, SiteCore::next_announcement, SiteCore::first_give,
   SiteCore::first_ask, SiteCore::first_done, SiteCore::first_close, SiteCore::gives_now, SiteCore::asks_now,
   SiteCore::dones_now */
#define GIVES (dirty & tokens & open)
#define ASKS (tokens & away & open)
#define DONES (open & ~said)
#define CLOSES (said & heard & open)
#define IS_DONE (!hungry && ate == due)
inline next_event() {
  d_step {
    kind = NONE; i = 0; set = 0;
    if
    :: GIVES -> kind = FORK; set = GIVES
    :: else -> if
    :: hungry && away == 0 && !(dirty & tokens) -> kind = BEGIN
    :: else -> if
    :: !hungry && ate < due -> kind = HUNGRY
    :: else -> if
    :: hungry && ASKS -> kind = REQUEST; set = ASKS
    :: else -> if
    :: IS_DONE && DONES -> kind = DONE; set = DONES
    :: else -> if
    :: CLOSES -> kind = CLOSE; set = CLOSES
    :: else
    fi fi fi fi fi fi;
    if :: set -> do :: (set & BIT(i)) == 0 -> i++ :: else -> break od :: else fi;
    if
    :: kind == FORK -> away = away | BIT(i); dirty = dirty & ~BIT(i)
    :: kind == REQUEST -> tokens = tokens & ~BIT(i)
    :: kind == DONE -> said = said | BIT(i)
    :: kind == CLOSE -> open = open & ~BIT(i)
    :: kind == HUNGRY -> hungry = 1
    :: else
    fi;
    set = 0
  }
}

/* Sets `number` to the first place whose letter was put off and whose fork is dirty now.
   of Runs.antt: HearsRing
   of running.rt: recall */
inline recall() {
  d_step {
    number = 0;
    do :: (put_off & dirty & BIT(number)) == 0 -> number++ :: else -> break od;
    put_off = put_off & ~BIT(number)
  }
}

/* of Runs.antt: Acts, if the event is Begin or End
   of running.rt: Running::eat, Running::begin_meal */
inline eat() {
  d_step {
    eating[me] = 1; i = 0;
    do :: i < degree[me] -> assert(!eating[neighbour[AT(i)]]); i++ :: else -> break od; i = 0
  };
  d_step { eating[me] = 0; hungry = 0; ate++; dirty = BIT(degree[me]) - 1 };
#ifdef RESIGN
  if :: true :: ate < due -> due = ate fi
#endif
}

/* Puts a letter at place i, and rings.
   of Runs.antt: Acts, if the event puts a letter
   of running.rt: Running::put, Running::close, close_at */
inline put() {
  PUT_BEFORE
  ring_for(neighbour[AT(i)], place_there[AT(i)], kind)
}

/* Notes under the lock that the bell sleeps, and what it wants.
   of Runs.antt: FallsAsleep
   of sleeper.rt: SleepState::fall_asleep; of running.rt: Running::wants */
inline fall_asleep() {
  d_step {
    asleep[me] = 1; wants_requests[me] = dirty; room[me] = CAPACITY(me); wants_forks[me] = 0; i = 0;
    do :: i < degree[me] -> if :: away & BIT(i) -> wants_forks[me]++ :: else fi; i++ :: else -> break od; i = 0
  }
}

/* Parks the thread: it sleeps in the kernel while the word is PARKED, and may wake there for no reason.
   of sleeper.rt: Sleeper::sleep; of counted_parker.rt: CountedParker::park */
inline park() {
  d_step { if :: parker[me] == EMPTY -> parker[me] = PARKED :: else fi };
  do
  :: d_step { parker[me] == NOTIFIED -> parker[me] = EMPTY }; break
  :: parker[me] != NOTIFIED ->
     if
     :: d_step { parker[me] == PARKED -> in_kernel[me] = 1 };
        if
        :: in_kernel[me] == 0
        :: d_step { spurious > 0 && in_kernel[me] -> spurious--; in_kernel[me] = 0 }
        fi
     :: parker[me] != PARKED
     fi
  od
}

/* What the letter `kind` from place `number` does to the site, with the asserts that it is in turn.
   of Runs.antt: TakesLetter
   of running.rt: Running::take_where_rung, Running::take, Running::take_and_note */
inline take() {
  TAKE_AFTER
  d_step {
    if
    :: kind == REQUEST -> assert(!((tokens | away | heard) & BIT(number))); tokens = tokens | BIT(number)
    :: kind == FORK -> assert((away & BIT(number)) && !(tokens & BIT(number))); away = away & ~BIT(number)
    :: kind == DONE -> assert(!(heard & BIT(number))); heard = heard | BIT(number)
#ifdef FAULT
    :: kind == CLOSE -> if :: heard & said & BIT(number) -> gone = gone | BIT(number) :: else -> early = 1 fi
#else
    :: kind == CLOSE -> assert(heard & said & BIT(number)); gone = gone | BIT(number)
#endif
    fi;
    kind = 0; number = 0
  }
}

/* of running.rt: Running::work, Running::do_events, Running::act, Running::make_room, Running::perform */
proctype site(byte me; byte due) {
  byte away, dirty, tokens; /* the places whose fork is away, is here and dirty, and whose token is here */
  byte open, said, heard, gone; /* the places without a Close by this site, with its Done, with the other Done, Close */
  byte put_off = 0; /* the places that rang and whose letter was put off */
  byte ate = 0;
  bit hungry = 0, wakes, early;
  byte i, kind, number, word, set;
  d_step {
    open = BIT(degree[me]) - 1;
    do
    :: i < degree[me] ->
       if
       :: me < neighbour[AT(i)] -> dirty = dirty | BIT(i)
       :: else -> away = away | BIT(i); tokens = tokens | BIT(i)
       fi;
       i++
    :: else -> break
    od;
    i = 0
  };
go_on:
  MAY_BREAK;
  next_event();
  if
  :: kind == BEGIN ->
#if POLITE
     /* A polite site eats only if no letter that was put off matters and a check of its bell finds no ring, and it never
        sleeps there. A patient one, which is in PATIENT too, checks or does not; so this stands for any patience, and
        for a greedy site that checks now and then.
        of running.rt: Running::begin, Running::check_bell, Running::take_where_rung, Running::take_recalled, recall_before_meal, is_checking,
        tally_then
        of bell.rt: Bell::check; of empty_checks.rt: EmptyChecks::next_or_add */
     if
     :: (POLITE & BIT(me)) == 0 || (PATIENT & BIT(me))
     :: (POLITE & BIT(me)) && (put_off & dirty) -> RECALL; goto heard_one
     :: (POLITE & BIT(me)) && !(put_off & dirty) && empty(bell[me])
     :: atomic { (POLITE & BIT(me)) && !(put_off & dirty) && nempty(bell[me]) -> HEAR };
#ifdef BUG_CHECK_DROPS
        number = 0; goto go_on
#else
        goto heard_one
#endif
     fi;
#endif
     eat(); goto go_on
  :: kind == HUNGRY -> goto go_on
  :: kind == NONE -> goto hear
  :: else -> put(); atomic { kind = 0; i = 0; word = 0; wakes = 0; goto go_on }
  fi;
hear:
  if
  :: IS_DONE && gone == BIT(degree[me]) - 1 && open == 0 -> goto finished
  :: else
  fi;
#ifndef BUG_NO_RECALL
  /* of running.rt: Running::wait_and_take */
  if
  :: put_off & dirty -> RECALL; goto heard_one
  :: else
  fi;
#endif
  /* of Runs.antt: HearsRing
     of running.rt: Running::hear_and_take
     of bell.rt: Bell::wait_for, Bell::next_ring, Bell::fall_asleep, next_ring_or_sleep;
     of sleeper.rt: SleepState::next_or_sleep */
  if
  :: HEAR; goto heard_one
  :: empty(bell[me])
  fi;
  LOCK(me);
#ifndef BUG_NO_SECOND_CHECK
  if
  :: HEAR; UNLOCK(me); goto heard_one
  :: empty(bell[me])
  fi;
#endif
  fall_asleep();
  UNLOCK(me);
  park();
#ifndef MAY_RECV_WAIT
  assert(nempty(bell[me]));
#endif
  HEAR;
heard_one:
  if
  :: PUTS_OFF(number) -> atomic { put_off = put_off | BIT(number); number = 0; goto go_on }
  :: else
  fi;
  MAY_BREAK;
  assert(!(gone & BIT(number)));
  take();
#ifdef FAULT
  if :: early -> early = 0; goto broken :: else fi;
#endif
  goto go_on;
#ifdef FAULT
broken: /* of running.rt: Running::break_off, Running::break_at */
  skip;
  d_step { i = 0; kind = 0; number = 0 };
  do
  :: i < degree[me] ->
     if
     :: open & BIT(i) -> open = open & ~BIT(i); kind = CLOSE; put(); word = 0; wakes = 0
     :: else
     fi;
     i++
  :: else -> break
  od;
  skip;
  d_step {
    ended++; kind = 0; i = 0; away = 0; dirty = 0; tokens = 0; said = 0; heard = 0; gone = 0; ate = 0; hungry = 0
  };
  goto over;
#endif
finished:
  skip;
  d_step {
    assert(empty(bell[me]) && put_off == 0 && ate == due && said == BIT(degree[me]) - 1 && heard == said);
    ended++; kind = 0; i = 0
  };
over:
  skip
}

inline edge(e, lo, hi) {
  neighbour[lo * D + degree[lo]] = hi; neighbour[hi * D + degree[hi]] = lo;
  outgoing[lo * D + degree[lo]] = 2 * e; incoming[lo * D + degree[lo]] = 2 * e + 1;
  outgoing[hi * D + degree[hi]] = 2 * e + 1; incoming[hi * D + degree[hi]] = 2 * e;
  place_there[lo * D + degree[lo]] = degree[hi]; place_there[hi * D + degree[hi]] = degree[lo];
  degree[lo]++; degree[hi]++
}

init {
  atomic {
#ifdef PAIR
    d_step { edge(0, 0, 1) }
#endif
#ifdef PATH
    d_step { edge(0, 0, 1); edge(1, 1, 2) }
#endif
#ifdef TRIANGLE
    d_step { edge(0, 0, 1); edge(1, 1, 2); edge(2, 0, 2) }
#endif
#ifdef STAR_LOW
    d_step { edge(0, 0, 1); edge(1, 0, 2) }
#endif
#ifdef STAR_HIGH
    d_step { edge(0, 0, 2); edge(1, 1, 2) }
#endif
#ifdef STAR4_HIGH
    d_step { edge(0, 0, 3); edge(1, 1, 3); edge(2, 2, 3) }
#endif
    run site(0, JOBS0); run site(1, JOBS1);
#if N > 2
    run site(2, JOBS2);
#endif
#if N > 3
    run site(3, JOBS3);
#endif
  }
  /* the run returns */
  ended == N
}
