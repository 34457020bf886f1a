/* How the two sides of the Tube wait for each other: a model of tube_cell (the exchange, the
   waker), tube_side (spin then park, waiting until admitted, speculating) and session (drive,
   drive_ahead).
   bench/waker.sh has spin look at every interleaving. A side that sleeps and is never woken is a
   state without a next one. NO_SIGNAL, NO_WAKE, NO_CUT and NO_RETRY are wrong protocols, in each of
   which spin must find such a state.

   The words of the cell are both horizons, the speculative horizon and the chip, of which a bit
   remains: whether the host changed what the parasite observes. LAST is the end of the run. Each
   side makes a step at each tick, or leaves it out. */
#ifndef LAST
#define LAST 3
#endif

#define HOST 0
#define PARA 1
#define NONE (LAST + 1)                /* the cut of a pass without one */

#define SIGNALLED 255
#define ARMED(t) (2 * (t) + 2)
#define PARKED 1

byte horizon[2], spec_horizon, chip;          /* the cell */
byte waker[2];                          /* the state of each side's waker */
bool parked[2];                        /* the side is in the system's wait */
bool ended[2];

/* A pass: the words that it knows, and its unpublished events. */
typedef Pass { byte horizon[2]; byte spec_horizon; byte chip; byte cut; bit flips };
Pass pass[2];

inline find(me) {
    pass[me].horizon[HOST] = horizon[HOST]; pass[me].horizon[PARA] = horizon[PARA];
    pass[me].spec_horizon = spec_horizon; pass[me].chip = chip
}

#define MIN(a, b) ((a) < (b) -> (a) : (b))
#define MAX(a, b) ((a) > (b) -> (a) : (b))

/* the host up to the parasite's horizon or speculative horizon, the parasite below the host's */
#define ADMITTED(side, host, para, spec, t) \
    ((side) == HOST -> (t) <= MAX(para, spec) : (t) < (host))

#define ADMITS(me, t) \
    ADMITTED(me, pass[me].horizon[HOST], pass[me].horizon[PARA], \
             MIN(pass[me].spec_horizon, pass[me].cut), t)

/* whether the step that the other side waits for is admitted by the words that were found */
#define LETS_ON(me) \
    ADMITTED(1 - me, pass[me].horizon[HOST], pass[me].horizon[PARA], pass[me].spec_horizon, seen)

#define IS_KNOWN(me) \
    (horizon[HOST] == pass[me].horizon[HOST] && horizon[PARA] == pass[me].horizon[PARA] && \
     spec_horizon == pass[me].spec_horizon && chip == pass[me].chip)

/* Waker::tick and Waker::signal, as TubeCell::signal calls them after an exchange: `is_cut` says
   whether that changed the speculative horizon. */
inline signal(me, is_cut) {
#ifndef NO_SIGNAL
    seen = waker[1 - me];
    if
    :: seen == 0 || seen == SIGNALLED
    :: else ->
        seen = seen / 2 - 1;
        if
#ifndef NO_CUT
        :: is_cut || LETS_ON(me) ->
#else
        :: LETS_ON(me) ->
#endif
            was_signalled = false;
            atomic {
                if
                :: waker[1 - me] == ARMED(seen) -> waker[1 - me] = SIGNALLED; was_signalled = true
                :: else
                fi
            }
            if
            :: was_signalled
            :: else ->
                atomic {
                    if
                    :: waker[1 - me] == ARMED(seen) + PARKED ->
                        waker[1 - me] = SIGNALLED; was_signalled = true
                    :: else
                    fi
                }
                if
#ifndef NO_WAKE
                :: was_signalled -> parked[1 - me] = false
#endif
                :: else
                fi
            fi
        :: else
        fi
    fi;
    seen = 0; was_signalled = false
#else
    skip
#endif
}

/* One exchange: the own horizon becomes `raises` and the speculative horizon `speculates`, with
   what is unpublished. `hit` says whether the words were the known ones. */
inline exchange(me) {
    atomic {
        if
        :: IS_KNOWN(me) ->
            hit = true; was_cut = (spec_horizon != speculates);
            horizon[me] = raises; spec_horizon = speculates; chip = chip ^ pass[me].flips;
            pass[me].flips = 0; pass[me].cut = NONE
        :: else -> hit = false
        fi;
        find(me)
    }
    if :: hit -> signal(me, was_cut) :: else fi;
    was_cut = false
}

/* Waker::sleep */
inline sleep(me) {
    do
    :: atomic { seen = waker[me] };
        if
        :: seen == SIGNALLED -> break
        :: seen != SIGNALLED && (seen & PARKED) == 0 ->
            atomic { if :: waker[me] == seen -> waker[me] = seen + PARKED :: else fi }
        :: else ->
            atomic { if :: waker[me] == seen -> parked[me] = true :: else fi };
            !parked[me]
        fi
    od;
    seen = 0
}

/* SpinThenPark::rest, before the next try of a step at the tick `waits`: how often a side looks at
   its waker before it sleeps is left open. */
inline rest(me) {
    if
    :: is_armed ->
        if
        :: waker[me] == SIGNALLED
        :: sleep(me)
        fi;
        waker[me] = 0; is_armed = false
    :: else ->
        waker[me] = ARMED(waits); is_armed = true
#ifdef NO_RETRY
        ; sleep(me); waker[me] = 0; is_armed = false
#endif
    fi
}

inline end_rest(me) { if :: is_armed -> waker[me] = 0; is_armed = false :: else fi }

/* All is published, unless it is already, and the side rests until it is admitted. */
inline wait_until_admitted(me, t) {
    if
    :: ADMITS(me, t)
    :: else ->
        atomic { find(me) };
        announced = false;
        if
        :: is_published && t <= MIN(pass[me].spec_horizon, pass[me].cut)
        :: else ->
            do
            :: ADMITS(me, t) -> break
            :: else ->
                raises = t; speculates = MIN(pass[me].spec_horizon, pass[me].cut); exchange(me);
                if :: hit -> break :: else fi
            od
        fi;
        do
        :: ADMITS(me, t) -> break
        :: else -> waits = t; rest(me); atomic { find(me) }
        od;
        end_rest(me)
    fi
}

inline finish(me) {
    do
    :: raises = LAST; speculates = MIN(pass[me].spec_horizon, pass[me].cut); exchange(me);
        if :: hit -> break :: else fi
    od
}

proctype Host() {
    byte t, seen, raises, speculates, waits;
    bool hit, was_cut, was_signalled, is_armed, is_published, announced;
    do
    :: t < LAST ->
        if
        :: wait_until_admitted(HOST, t);
            assert(t <= MAX(horizon[PARA], spec_horizon));
            /* nothing that the parasite observes, or something, which lowers the speculative
               horizon to the tick */
            if
            :: skip
            :: atomic { pass[HOST].flips = 1; pass[HOST].cut = MIN(pass[HOST].cut, t) }
            fi
        :: skip
        fi;
        t++
    :: else -> break
    od;
    finish(HOST);
    ended[HOST] = true
}

proctype Para() {
    byte t, mark, seen_chip, far, seen, raises, speculates, waits;
    bool hit, was_cut, was_signalled, is_armed, is_published, announced;
    do
    :: t < LAST ->
        if
        /* a step that the host admits, or that it has to see */
        :: wait_until_admitted(PARA, t); assert(t < horizon[HOST]); is_published = false; t++
        /* speculatively, in one stride or in two */
        :: !ADMITS(PARA, t) ->
            mark = t; seen_chip = pass[PARA].chip; announced = false;
            if :: far = t + 1 :: t + 2 <= LAST -> far = t + 2 fi;
            do
            :: pass[PARA].chip != seen_chip -> break
            :: else ->
                raises = mark; speculates = far; exchange(PARA);
                if :: hit -> announced = true; break :: else fi
            od;
            if
            :: announced ->
                if
                :: far < LAST ->
                    far++;
                    do
                    :: pass[PARA].chip != seen_chip || pass[PARA].spec_horizon < far - 1 -> break
                    :: else ->
                        raises = pass[PARA].horizon[PARA]; speculates = far; exchange(PARA);
                        if :: hit -> break :: else fi
                    od
                :: skip
                fi;
                do
                :: atomic { find(PARA) };
                    if
                    :: pass[PARA].spec_horizon <= pass[PARA].horizon[HOST] -> break
                    :: else ->
                        waits = (pass[PARA].spec_horizon > 0 -> pass[PARA].spec_horizon - 1 : 0);
                        rest(PARA)
                    fi
                od;
                end_rest(PARA);
                t = pass[PARA].spec_horizon; is_published = true
            :: else -> wait_until_admitted(PARA, t); is_published = false; t++
            fi;
            mark = 0; seen_chip = 0; far = 0; announced = false
        /* no step at this tick */
        :: t++
        fi
    :: else -> break
    od;
    finish(PARA);
    ended[PARA] = true
}

init {
    atomic { pass[HOST].cut = NONE; pass[PARA].cut = NONE; run Host(); run Para() };
    (ended[HOST] && ended[PARA]);
    assert(horizon[HOST] == LAST && horizon[PARA] == LAST)
}
