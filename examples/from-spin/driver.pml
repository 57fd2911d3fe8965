// The driver of ../bluetooth/bluetooth.bp: each statement stands on the line on which the program
// has it. A call and the end of a procedure are steps there, so they are steps here: `skip` before
// what is called, and `ended`. SPIN wants procedures before their callers, so `#line` has the lines
// of both. The count of pending work is a number.
#define ended assert(true)
bit stopping, idle, stopped;
byte pending = 1;

#line 23
inline count() {
  pending = pending + 1;
  ended }

inline discount() {
  pending = pending - 1;
  if :: pending > 0 -> skip :: else -> idle = 1 fi;
  ended }

#line 6
active proctype worker() {
  if :: !stopping -> goto work :: else fi;
    skip;
    goto over;
    work: skip; count();
    assert(!stopped);
    skip; discount();
  over: ended
}

active proctype stopper() {
  stopping = 1;
  skip; discount();
  idle;
  stopped = 1;
  ended }
