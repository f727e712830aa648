(* The jobs of bench/signals.py over React, the library of signals for OCaml:
     jobs JOB SIZE UPDATES SEED
   prints the microseconds of building, those of an update, and the sum of all numbers that were asked for. *)
open React

let next seed = seed * 16807 mod 2147483647

(* For each job: the setters of its inputs, and what is asked for after the input of a place was set. *)
let tree size =
  let leaves = Array.init size (fun _ -> S.create 0) in
  let rec sum first last =
    if last - first = 1 then fst leaves.(first)
    else
      let middle = (first + last) / 2 in
      S.l2 ( + ) (sum first middle) (sum middle last)
  in
  let root = sum 0 size in
  (Array.map snd leaves, fun _ -> S.value root)

let map size =
  let inputs = Array.init size (fun _ -> S.create 0) in
  let images = Array.map (fun (input, _) -> S.map (fun x -> x * 10) input) inputs in
  (Array.map snd inputs, fun at -> S.value images.(at))

let readers size =
  let input, set = S.create 0 in
  let images = Array.init size (fun _ -> S.map (fun x -> x + 1) input) in
  ([| set |], fun _ -> S.value images.(size - 1))

let () =
  let size, updates = (int_of_string Sys.argv.(2), int_of_string Sys.argv.(3)) in
  let make = match Sys.argv.(1) with "tree" -> tree | "map" -> map | _ -> readers in
  let seed, total = (ref (int_of_string Sys.argv.(4)), ref 0) in
  let begun = Unix.gettimeofday () in
  let setters, ask = make size in
  let built = Unix.gettimeofday () in
  for value = 1 to updates do
    seed := next !seed;
    let at = !seed mod Array.length setters in
    setters.(at) value;
    total := !total + ask at
  done;
  let ended = Unix.gettimeofday () in
  Printf.printf "%f %f %d\n" ((built -. begun) *. 1e6) ((ended -. built) *. 1e6 /. float updates) !total
