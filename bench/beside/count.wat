;; The counting loop in WebAssembly text: counts ROUNDS times to 150,000. beside.sh puts a number for ROUNDS.
(module
  (func (export "count") (local $round i32) (local $i i32)
    (loop $rounds
      (local.set $i (i32.const 0))
      (loop $a
        (local.set $i (i32.add (local.get $i) (i32.const 1)))
        (br_if $a (i32.lt_s (local.get $i) (i32.const 150000))))
      (local.set $round (i32.add (local.get $round) (i32.const 1)))
      (br_if $rounds (i32.lt_s (local.get $round) (i32.const ROUNDS))))))
