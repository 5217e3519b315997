(* A driver over OCaml's own values and its own collector. Grade: space (docs/ADAPTER.md).

   Objects are records, and a weak array has them all: what the collector has taken out of it isn't charged any more after
   the next reclaim.  A flip is one full collection, and is finished at the next scan or allocation.  OCaml's minor and major
   collections also run by themselves. *)

let minor_words = 4096
let stress_minor = 20                   (* commands between two minor collections that OCaml begins by itself *)
let stress_major = 100

type value = Nil | Number of int | Ref of obj
and obj = { area : area; code : int; index : int; mutable parts : value array; is_cell : bool }
and area = { name : string; kind : string; quota : int; mutable charged : int; mutable husks : int }

let cons_code = -1
let is_cons one = one.code = cons_code

type phase = Idle | Running | Over

let phase = ref Idle
let levels = ref 0
let header = ref []                     (* the lines of a dump before its objects, the last one first *)
let areas : area list ref = ref []
let registers = ref [||]
let fail text = prerr_endline text; exit 1
let area_of name = List.find (fun area -> area.name = name) !areas

(* ---- All objects, weakly, and the charge of each *)

let all = ref (Weak.create 64)
let charges = ref (Array.make 64 0)
let areas_at = ref [||]
let count = ref 0
let statics = ref []                    (* objects of static areas: they are never condemned *)
let newborn = ref []                    (* objects made since the flip: they aren't condemned *)

let widen dummy =
  let size = 2 * !count + 64 in
  let wider = Weak.create size in
  Weak.blit !all 0 wider 0 !count;
  all := wider;
  charges := Array.append !charges (Array.make (size - Array.length !charges) 0);
  areas_at := Array.append !areas_at (Array.make (size - Array.length !areas_at) dummy)

let hold area code parts is_cell charge =
  if !count >= Array.length !areas_at || !count >= Weak.length !all then widen area;
  let one = { area; code; index = !count; parts; is_cell } in
  Weak.set !all one.index (Some one);
  !charges.(one.index) <- charge;
  !areas_at.(one.index) <- area;
  incr count;
  if area.kind = "static" then statics := one :: !statics;
  if !phase <> Idle then newborn := one :: !newborn;
  one

let new_cons area car cdr = Ref (hold area cons_code [| car; cdr |] false 2)
let new_cell area car cdr = Ref (hold area cons_code [| car; cdr |] true 3)
let new_list area cars = List.fold_left (fun rest car -> new_cell area car rest) Nil (List.rev cars)
let new_block area code fields = Ref (hold area code fields false (Array.length fields + 1))

(* The accounts by what is still there. *)
let count_charges () =
  List.iter (fun area -> area.charged <- area.husks) !areas;
  for at = 0 to !count - 1 do
    if Weak.check !all at then begin
      let area = !areas_at.(at) in
      area.charged <- area.charged + !charges.(at)
    end
  done

(* ---- Collections, and counts of those that OCaml began *)

let forced_minor = ref 0 and forced_major = ref 0
let minors () = (Gc.quick_stat ()).Gc.minor_collections - !forced_minor
let majors () = (Gc.quick_stat ()).Gc.major_collections - !forced_major

let collect_all () =
  let minor = minors () and major = majors () in
  Gc.full_major ();
  forced_minor := !forced_minor + minors () - minor;
  forced_major := !forced_major + majors () - major

let flip () =
  if !phase <> Idle then "busy" else begin
    collect_all ();
    List.iter (fun area -> if area.kind <> "static" then area.husks <- 0) !areas;
    phase := Running;
    "flipped 0"
  end

let scanned () = if !phase = Running then phase := Over

let scavenge () = if !phase = Idle then "not-flipped" else (scanned (); "done")

let reclaim () =
  match !phase with
  | Idle -> "not-flipped"
  | Running -> "not-done"
  | Over -> count_charges (); newborn := []; phase := Idle; "reclaimed"

let rec allocate_until is_enough size = if not (is_enough ()) then begin
  ignore (Sys.opaque_identity (Array.make size 0));
  allocate_until is_enough size
end

let stress number =
  if number mod stress_minor = 0 then begin
    let before = minors () in
    allocate_until (fun () -> minors () > before) 50
  end;
  if number mod stress_major = 0 then begin
    let before = majors () in
    allocate_until (fun () -> majors () > before) 5000
  end

let tell_collections () =
  match Sys.getenv_opt "LISPM_COLLECTIONS" with
  | None -> ()
  | Some path ->
    let file = open_out_gen [Open_append; Open_creat] 0o644 path in
    Printf.fprintf file "%d %d\n" (minors ()) (majors ());
    close_out file

(* ---- Dumps *)

let shown = function
  | Nil -> "nil"
  | Number n -> string_of_int n
  | Ref one when is_cons one -> "cons"
  | Ref one -> Printf.sprintf "block %d %d" one.code (Array.length one.parts)

let numbered () =
  let numbers = Hashtbl.create 64 and order = Queue.create () and left = Queue.create () in
  let rec visit = function
    | Ref one when not (Hashtbl.mem numbers one.index) ->
      Hashtbl.add numbers one.index (Hashtbl.length numbers);
      Queue.add one order;
      Queue.add one left;
      if is_cons one then (match one.parts.(1) with Ref next when is_cons next -> visit one.parts.(1) | _ -> ())
    | _ -> () in
  Array.iter visit !registers;
  while not (Queue.is_empty left) do Array.iter visit (Queue.pop left).parts done;
  numbers, Array.of_seq (Queue.to_seq order)

(* For the first place of each list of cells how many it has. *)
let runs_of order =
  let sizes = Hashtbl.create 16 in
  let leads_to at next =
    let one = order.(at) in
    one.is_cell && one.area == next.area && (match one.parts.(1) with Ref there -> there == next | _ -> false) in
  Array.iteri (fun tail one ->
    if one.is_cell && one.parts.(1) = Nil then begin
      let first = ref tail in
      while !first > 0 && tail - !first + 1 < 1024 && leads_to (!first - 1) order.(!first) do decr first done;
      Hashtbl.replace sizes !first (tail - !first + 1)
    end) order;
  sizes

let dump () =
  let numbers, order = numbered () in
  let sizes = runs_of order and out = Buffer.create 4096 in
  let named = function Ref one -> "#" ^ string_of_int (Hashtbl.find numbers one.index) | value -> shown value in
  let line words = Buffer.add_string out (String.concat " " words); Buffer.add_char out '\n' in
  List.iter (fun text -> line [text]) (List.rev !header);
  let at = ref 0 in
  while !at < Array.length order do
    let one = order.(!at) in
    let parts = List.map named (Array.to_list one.parts) in
    (match Hashtbl.find_opt sizes !at with
     | Some size ->
       line ("run" :: one.area.name :: List.init size (fun i -> named order.(!at + i).parts.(0)));
       at := !at + size - 1
     | None when is_cons one -> line ("cons" :: one.area.name :: parts)
     | None -> line ("block" :: one.area.name :: string_of_int one.code :: parts));
    incr at
  done;
  Array.iteri (fun register value -> if value <> Nil then line ["root"; string_of_int register; named value]) !registers;
  Buffer.add_string out "end-world";
  Buffer.contents out

(* ---- Commands *)

let number = int_of_string
let constant word = if word = "nil" then Nil else Number (number word)
let register word = !registers.(number word)
let set to_ value = !registers.(number to_) <- value
let fetch to_ value = set to_ value; shown value

(* An allocation, if the quota allows it.  A collection that runs is finished then. *)
let charged area words action =
  if area.charged + words > area.quota
  then Printf.sprintf "exhausted %s %d %d %d" area.name area.charged words area.quota
  else begin
    area.charged <- area.charged + words;
    action ();
    scanned ();
    "ok"
  end

let with_cons word action = match register word with Ref one when is_cons one -> action one | _ -> "wrong-type"
let with_block word action = match register word with Ref one when not (is_cons one) -> action one | _ -> "wrong-type"

let with_field word index action = with_block word (fun block ->
  let count = Array.length block.parts and index = number index in
  if index < count then action block index else Printf.sprintf "no-field %d" count)

let store one index from = one.parts.(index) <- register from; "ok"

let grow word wanted = with_block word (fun block ->
  let count = Array.length block.parts in
  if number wanted <= count then "ok" else
    let wider = max (number wanted) (min (2 * count + 1) 2047) in
    charged block.area (wider + 1) (fun () ->
      block.area.husks <- block.area.husks + count + 1;
      !charges.(block.index) <- wider + 1;
      block.parts <- Array.append block.parts (Array.make (wider - count) Nil)))

let same one other = match one, other with
  | Ref one, Ref other -> one == other
  | Ref _, _ | _, Ref _ -> false
  | _ -> one = other

let stats () =
  String.concat "\n" (List.map (fun area -> Printf.sprintf "area %s %d %d" area.name area.charged area.quota) !areas)

let answer = function
  | ["set"; to_; word] -> set to_ (constant word); "ok"
  | ["move"; to_; from] -> set to_ (register from); "ok"
  | ["cons"; to_; name; car; cdr] ->
    charged (area_of name) 2 (fun () -> set to_ (new_cons (area_of name) (register car) (register cdr)))
  | "list" :: to_ :: name :: items ->
    charged (area_of name) (3 * List.length items) (fun () -> set to_ (new_list (area_of name) (List.map register items)))
  | ["make"; to_; name; code; count] ->
    charged (area_of name) (number count + 1)
      (fun () -> set to_ (new_block (area_of name) (number code) (Array.make (number count) Nil)))
  | ["grow"; word; wanted] -> grow word wanted
  | ["car"; to_; from] -> with_cons from (fun one -> fetch to_ one.parts.(0))
  | ["cdr"; to_; from] -> with_cons from (fun one -> fetch to_ one.parts.(1))
  | ["rplaca"; target; from] -> with_cons target (fun one -> store one 0 from)
  | ["rplacd"; target; from] -> with_cons target (fun one -> store one 1 from)
  | ["get"; to_; from; index] -> with_field from index (fun one index -> fetch to_ one.parts.(index))
  | ["put"; target; index; from] -> with_field target index (fun one index -> store one index from)
  | ["size"; word] -> with_block word (fun one -> string_of_int (Array.length one.parts))
  | ["eq"; one; other] -> if same (register one) (register other) then "t" else "nil"
  | ["flip"; _] -> flip ()
  | ["scavenge"; _] -> scavenge ()
  | ["reclaim"] -> reclaim ()
  | ["page-out"; _] -> "ok"
  | ["stats"] -> stats ()
  | ["dump"] -> dump ()
  | words -> fail ("no such command: " ^ String.concat " " words)

(* ---- Worlds.  References may be to later objects, so they are filled in at the end. *)

let read_world () =
  let objects = Queue.create () and filling = ref [] and roots = ref [] and has_capacity = ref false in
  let add = function Ref one -> Queue.add one objects; one | _ -> fail "no object" in
  let reference word = int_of_string (String.sub word 1 (String.length word - 1)) in
  let fill one index word =
    if word.[0] = '#' then filling := (one, index, reference word) :: !filling else one.parts.(index) <- constant word in
  let rec read () =
    let line = input_line stdin in
    let words = String.split_on_char ' ' line in
    if List.mem (List.hd words) ["space"; "area"; "capacity"] then header := line :: !header;
    (match words with
     | "lispm-world" :: _ -> header := ["lispm-world 2"]
     | ["space"; _; _; size; level; _] ->
       levels := number level;
       registers := Array.make (number size) Nil
     | ["area"; name; kind; quota] -> areas := !areas @ [{ name; kind; quota = number quota; charged = 0; husks = 0 }]
     | "capacity" :: _ -> has_capacity := true
     | ["cons"; name; car; cdr] ->
       let one = add (new_cons (area_of name) Nil Nil) in
       fill one 0 car;
       fill one 1 cdr
     | "block" :: name :: code :: words ->
       let one = add (new_block (area_of name) (number code) (Array.make (List.length words) Nil)) in
       List.iteri (fill one) words
     | "run" :: name :: words ->
       let rec cells list words = match list, words with
         | Ref one, word :: rest -> fill (add list) 0 word; cells one.parts.(1) rest
         | _ -> () in
       cells (new_list (area_of name) (List.map (fun _ -> Nil) words)) words
     | ["root"; register; word] -> roots := (number register, word) :: !roots
     | _ -> ());
    if line <> "trace" then read () in
  read ();
  if not !has_capacity then header := ("capacity" ^ String.concat "" (List.init !levels (fun _ -> " 0"))) :: !header;
  let objects = Array.of_seq (Queue.to_seq objects) in
  List.iter (fun (one, index, at) -> one.parts.(index) <- Ref objects.(at)) !filling;
  List.iter (fun (register, word) ->
    !registers.(register) <- if word.[0] = '#' then Ref objects.(reference word) else constant word) !roots;
  count_charges ()

let rec run_trace number =
  let line = input_line stdin in
  if line <> "end" then begin
    stress number;
    print_endline (answer (String.split_on_char ' ' line));
    run_trace (number + 1)
  end

let () =
  Gc.set { (Gc.get ()) with Gc.minor_heap_size = minor_words };
  read_world ();
  run_trace 1;
  tell_collections ()
