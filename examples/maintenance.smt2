(declare-datatype Option (par (X) (
  (none)
  (some (val X)))))
(declare-datatype IPAddr (
  (V4 (addrV4 (_ BitVec 32)) (prefixV4 (Option (_ BitVec 5))))
  (V6 (addrV6 (_ BitVec 128)) (prefixV6 (Option (_ BitVec 7))))))
; "context.source"
(declare-const t0 IPAddr)
(define-fun t1 () IPAddr (V4 (_ bv167772161 32) (as none (Option (_ BitVec 5)))))
(define-fun t2 () IPAddr (V4 (_ bv167772162 32) (as none (Option (_ BitVec 5)))))
(define-fun t3 () (Set IPAddr) (set.insert t1 t2 (as set.empty (Set IPAddr))))
(define-fun t4 () Bool (set.member t0 t3))
(declare-datatype Datetime (
  (Datetime (datetimeVal (_ BitVec 64)))))
; "context.now"
(declare-const t5 Datetime)
(define-fun t6 () (_ BitVec 64) (datetimeVal t5))
(define-fun t7 () Bool (bvsle (_ bv1772402400000 64) t6))
(define-fun t8 () (_ BitVec 64) (bvsub t6 (_ bv1772402400000 64)))
(define-fun t9 () Bool (bvslt t8 (_ bv7200000 64)))
(define-fun t10 () Bool (= t0 t1))
(define-fun t11 () Bool (bvsle (_ bv1772409600000 64) t6))
(assert t4)
(assert t7)
(assert t9)
(assert t10)
(assert t11)
