;;;; A world: its sizes, its areas, its objects, and its roots.
;;;;
;;;; nil and numbers are Lisp's own, a cons is a Lisp cons, and a block an adjustable vector. What
;;;; they have no room for (the area, a cons's charge, a block's code) is in a weak table by `eq'.

(in-package :driver)

(defstruct area name kind quota (charged 0))

(defvar *format*)
(defvar *space*)                        ; regions, frames, registers, levels, rate
(defvar *areas*)
(defvar *capacity*)
(defvar *registers*)
(defvar *objects*)                      ; those of the world's lines, by their numbers
(defvar *named*)                        ; the numbers to which object lines refer
(defvar *rooted*)                       ; the registers that have a root line
(defvar *notes*)                        ; object -> (area . charge of a cons, or code of a block)

(defun registers () (third *space*))
(defun levels () (fourth *space*))
(defun find-area (word) (find word *areas* :key #'area-name :test #'string=))

(defun note (object area number)
  (setf (gethash object *notes*) (cons area number))
  object)

(defun new-cons (area car cdr) (note (cons car cdr) area 2))

(defun new-list (area values)
  "A list of the runtime's. Each of its conses is charged 3."
  (let ((list (copy-list values)))
    (loop for cons on list do (note cons area 3))
    list))

(defun new-block (area code fields)
  (note (make-array (length fields) :adjustable t :initial-contents fields) area code))

(defun read-word (kind word)
  "What a word says, or the refusal of its line."
  (let ((range (assoc kind *ranges*)))
    (if range
        (or (number-in word (second range) (third range)) (bad "bad number"))
        (ecase kind
          (register (or (number-in word 0 (1- (registers))) (bad "no register")))
          (root (let ((register (read-word 'register word)))
                  (if (member register *rooted*) (bad "register twice") register)))
          (area (or (find-area word) (bad "no area")))
          (name (cond ((not (name-p word)) (bad "bad name"))
                      ((find-area word) (bad "area twice"))
                      (t word)))
          (kind (or (find word '("static" "dynamic" "ephemeral") :test #'string=) (bad "bad kind")))
          (value (value-in word))
          (plain (if (starts-p word #\#) (bad "bad value") (value-in word)))
          (held (object-of (value-in word)))
          (chosen (or (levels-in word (levels)) (bad "bad levels")))))))

(defun parse (words kinds &key rest (least 0) most reason)
  "What the words after the first mean, each by its kind; those after the last kind are of the kind REST."
  (let ((more (- (length words) 1 (length kinds))))
    (when (and most (> more most)) (bad reason))
    (unless (if rest (>= more least) (= more 0)) (bad "wrong count"))
    (loop for word in (cdr words)
          for kind = (if kinds (pop kinds) rest)
          collect (read-word kind word))))

(defun object-of (value)
  "A value of a world whose objects exist."
  (cond ((not (reference-p value)) value)
        ((< (reference-number value) (length *objects*)) (aref *objects* (reference-number value)))
        (t (bad "no object ~d" (reference-number value)))))

;;; The lines of a world

(defun charge (area words)
  "Charges an area; nil if that would exceed its quota."
  (and (<= (+ (area-charged area) words) (area-quota area))
       (incf (area-charged area) words)))

(defun exhausted (area words)
  (format nil "exhausted ~a ~d ~d ~d" (area-name area) (area-charged area) words (area-quota area)))

(defun take-object (area words values object)
  "An object line: its conses or its block get the next numbers."
  (unless (charge area words) (refuse 4 (exhausted area words)))
  (dolist (value values)
    (when (reference-p value) (push (reference-number value) *named*)))
  (vector-push-extend object *objects*))

(defun take-run (area &rest values)
  (let ((list (new-list area values)))
    (take-object area (* 3 (length values)) values list)
    (loop for cons on (cdr list) do (vector-push-extend cons *objects*))))

(defun take-area (name kind quota)
  (setf *areas* (append *areas* (list (make-area :name name :kind kind :quota quota))))
  (when (> (loop for area in *areas* sum (+ (ceiling (area-quota area) 1024) (* 2 (1+ (levels)))))
           (first *space*))
    (refuse 4 "space too small")))

(defun check-references ()
  "Each object that a line refers to exists."
  (let ((missing (remove-if (lambda (number) (< number (length *objects*))) *named*)))
    (when missing (bad "no object ~d" (reduce #'min missing)))))

(defun resolve (object)
  "The parts of an object that are given by number become the objects themselves."
  (if (consp object)
      (setf (car object) (object-of (car object)) (cdr object) (object-of (cdr object)))
      (map-into object #'object-of object)))

(defun take-line (words)
  "A line after the first area line that is allowed here."
  (let ((head (intern (string-upcase (first words)) :driver)))
    (ecase head
      (area
       (when (= (length *areas*) 16) (bad "too many areas"))
       (apply #'take-area (parse words '(name kind quota))))
      (capacity
       (setf *capacity* (parse words (make-list (levels) :initial-element 'capacity))))
      (cons
       (destructuring-bind (area car cdr) (parse words '(area value value))
         (take-object area 2 (list car cdr) (new-cons area car cdr))))
      (block
       (destructuring-bind (area code &rest fields)
           (parse words '(area code) :rest 'value :most 2047 :reason "too many fields")
         (take-object area (1+ (length fields)) fields (new-block area code fields))))
      (run
       (apply #'take-run (parse words '(area) :rest 'value :least 1 :most 1024 :reason "too many items")))
      (root
       (destructuring-bind (register value) (parse words '(root held))
         (push register *rooted*)
         (setf (aref *registers* register) value)))
      (trace (parse words '()) (map nil #'resolve *objects*)))
    head))

(defun may-follow (part head)
  "Whether a line that begins with HEAD may follow one that begins with PART."
  (let ((order '(("area") ("capacity") ("cons" "block" "run") ("root") ("trace"))))
    (flet ((place (word) (position word order :test (lambda (w group) (member w group :test #'string=)))))
      (and (place head)
           (or (= *format* 2) (not (member head '("capacity" "run") :test #'string=)))
           (not (and (string= head "capacity") (string/= part "area")))
           (<= (place part) (place head))))))

(defun check-order (part head)
  (when (and (= *format* 2) (string= part "area")
             (not (member head '("area" "capacity") :test #'string=)))
    (bad "capacity expected"))
  (unless (may-follow part head) (bad "unexpected line"))
  (when (and (member head '("root" "trace") :test #'string=) (string/= part "root"))
    (check-references)))

(defun read-sizes ()
  "The first two lines."
  (setf *format* (position (next-line) '("" "lispm-world 1" "lispm-world 2") :test #'string=))
  (unless (member *format* '(1 2)) (bad "not a world"))
  (let ((words (words-of (next-line))))
    (unless (string= (first words) "space") (bad "space expected"))
    (setf *space* (parse words '(regions frames registers levels rate))
          *registers* (make-array (registers) :initial-element nil)
          *capacity* (make-list (levels) :initial-element 0))))

(defun read-world ()
  (read-sizes)
  (loop with part = nil
        for words = (words-of (next-line))
        for head = (first words)
        do (cond (part (check-order part head))
                 ((string/= head "area") (bad "area expected")))
           (take-line words)
           (setf part head)
        until (string= head "trace"))
  (setf *objects* nil))
