;; A machine with eight instructions, each a byte, chosen by br_table: its program counts down and mixes a register.
;; It traps unless the number is the one that it should be.
(module
  (memory 32 32)
  (data (i32.const 2048) "\00\01\02\03\04\01\05\02\06\07")
  (func $run (result i64)
    (local $counter i32) (local $at i32) (local $a i64) (local $b i64)
    (local.set $counter (i32.const 4000000))
    (local.set $a (i64.const 1))
    (local.set $b (i64.const 7))
    (block $halt
      (loop $next
        (br_if $halt (i32.eqz (local.get $counter)))
        (local.set $counter (i32.sub (local.get $counter) (i32.const 1)))
        (block $again
          (block $seven
            (block $six
              (block $five
                (block $four
                  (block $three
                    (block $two
                      (block $one
                        (block $zero
                          (br_table $zero $one $two $three $four $five $six $seven
                            (i32.load8_u offset=2048 (local.get $at))))
                        (local.set $a (i64.add (local.get $a) (local.get $b)))
                        (br $again))
                      (local.set $b (i64.xor (local.get $b) (local.get $a)))
                      (br $again))
                    (local.set $a (i64.mul (local.get $a) (i64.const 3)))
                    (br $again))
                  (local.set $b (i64.sub (local.get $b) (i64.const 11)))
                  (br $again))
                (local.set $a (i64.rotr (local.get $a) (i64.const 9)))
                (br $again))
              (local.set $b (i64.or (local.get $b) (i64.const 1)))
              (br $again))
            (local.set $a (i64.shr_u (local.get $a) (i64.const 1)))
            (br $again))
          (local.set $at (i32.const 0))
          (br $next))
        (local.set $at (i32.add (local.get $at) (i32.const 1)))
        (br $next)))
    (i64.add (local.get $a) (local.get $b)))
  (func (export "_start")
    (if (i64.ne (call $run) (i64.const 7195558719691707748))
      (then (unreachable)))))
