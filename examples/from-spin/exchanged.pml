// Peterson's lock with one assignment too late, as ../peterson/exchanged.bp has it: each statement
// stands on the line on which the program has it.
bit first_wants, second_wants, second_first, busy;

active proctype first() {
  second_first = 1;
  first_wants = 1;
  !(second_wants && second_first);
  assert(!busy);
  busy = 1;
  busy = 0;
  first_wants = 0
}

active proctype second() {
  second_wants = 1;
  second_first = 0;
  !(first_wants && !second_first);
  assert(!busy);
  busy = 1;
  busy = 0;
  second_wants = 0
}
