// The sender and the receiver of sender.bp: each statement stands on the line on which the program
// has it. Both options of line 8 can always be taken, as both ways of a `?` can.
bit sent, acknowledged, got;

active proctype sender() {
  sent = 1;
  turn: do :: acknowledged -> break :: else ->
    if :: true :: true -> goto idle fi;
      sent = 1;
      goto turn;
    idle: skip

  od
}

active proctype receiver() {
  do :: true ->
    sent;
    sent = 0;
    assert(!got);
    got = 1;
    acknowledged = 1
  od
}
