(module
  (memory (export "memory") 2 4)
  (type $step (func (param i32 i32) (result i32)))
  (start $fill)

  ;; a table of the remainders of all bytes, at 65536
  (func $fill (local $byte i32) (local $bit i32) (local $value i32)
    loop $bytes
      local.get $byte
      local.set $value
      i32.const 8
      local.set $bit
      loop $bits
        local.get $value
        i32.const 1
        i32.and
        if (result i32)
          (i32.xor (i32.shr_u (local.get $value) (i32.const 1)) (i32.const 0xEDB8_8320))
        else
          (i32.shr_u (local.get $value) (i32.const 1))
        end
        local.set $value
        (br_if $bits (local.tee $bit (i32.sub (local.get $bit) (i32.const 1))))
      end
      (i32.store offset=65536 (i32.shl (local.get $byte) (i32.const 2)) (local.get $value))
      (br_if $bytes (i32.lt_u (local.tee $byte (i32.add (local.get $byte) (i32.const 1))) (i32.const 256)))
    end)

  (func $one (type $step) (param $crc i32) (param $byte i32) (result i32)
    (i32.xor
      (i32.load offset=65536
        (i32.shl (i32.and (i32.xor (local.get $crc) (local.get $byte)) (i32.const 0xff)) (i32.const 2)))
      (i32.shr_u (local.get $crc) (i32.const 8))))

  (func (export "crc32") (param $start i32) (param $length i32) (result i32)
    (local $crc i32) (local $end i32)
    (local.set $crc (i32.const -1))
    (local.set $end (i32.add (local.get $start) (local.get $length)))
    (block $done (loop $next
      (br_if $done (i32.ge_u (local.get $start) (local.get $end)))
      (local.set $crc (call $one (local.get $crc) (i32.load8_u (local.get $start))))
      (local.set $start (i32.add (local.get $start) (i32.const 1)))
      (br $next)))
    (i32.xor (local.get $crc) (i32.const 0xffffffff))))
