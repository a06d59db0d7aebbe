;; A module that loops for good. Its process is ended once its steps are used up, by the signal xcpu: status 128 + 24.
(module
  (func (export "_start")
    (loop $again
      (br $again))))
