// The program of bench/exploring.py for SPIN: each step there is one here.
bit lock, shared;

active [THREADS] proctype counter() {
  bit a, b, c;
  do
  :: skip;
     d_step { c = (a & b) ^ c; b = a ^ b; a = 1 - a };
     !lock;
     lock = 1;
     shared = shared ^ a;
     assert(a == a);
     lock = 0
  od
}
