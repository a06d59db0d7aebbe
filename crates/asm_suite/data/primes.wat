(module
  (memory $sieve 16)
  (global $limit i32 (i32.const 1_000_000))
  ;; How many primes there are below the limit: each multiple of a prime is marked in memory.
  (func $count (export "count") (result i32)
    (local $p i32) (local $multiple i32) (local $found i32)
    (local.set $p (i32.const 2))
    (block $all
      (loop $each
        (br_if $all (i32.ge_u (local.get $p) (global.get $limit)))
        (if (i32.eqz (i32.load8_u (local.get $p)))
          (then
            (local.set $found (i32.add (local.get $found) (i32.const 1)))
            (local.set $multiple (i32.shl (local.get $p) (i32.const 1)))
            (block $marked
              (loop $mark
                (br_if $marked (i32.ge_u (local.get $multiple) (global.get $limit)))
                (i32.store8 (local.get $multiple) (i32.const 1))
                (local.set $multiple (i32.add (local.get $multiple) (local.get $p)))
                (br $mark)))))
        (local.set $p (i32.add (local.get $p) (i32.const 1)))
        (br $each)))
    (local.get $found))
  (export "sieve" (memory $sieve)))
