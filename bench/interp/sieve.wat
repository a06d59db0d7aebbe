;; Bytes: the primes below 1,000,000 by a sieve, and how many they are.
;; It traps unless the number is the one that it should be.
(module
  (memory 32 32)
  (func $run (result i64)
    (local $n i32) (local $multiple i32) (local $found i64)
    (local.set $n (i32.const 2))
    (loop $numbers
      (if (i32.eqz (i32.load8_u (local.get $n)))
        (then
          (local.set $found (i64.add (local.get $found) (i64.const 1)))
          (local.set $multiple (i32.shl (local.get $n) (i32.const 1)))
          (block $crossed
            (loop $cross
              (br_if $crossed (i32.ge_u (local.get $multiple) (i32.const 1000000)))
              (i32.store8 (local.get $multiple) (i32.const 1))
              (local.set $multiple (i32.add (local.get $multiple) (local.get $n)))
              (br $cross)))))
      (br_if $numbers (i32.lt_u (local.tee $n (i32.add (local.get $n) (i32.const 1))) (i32.const 1000000))))
    (local.get $found))
  (func (export "_start")
    (if (i64.ne (call $run) (i64.const 78498))
      (then (unreachable)))))
