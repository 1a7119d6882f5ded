(* vipr-rocq [--profile 1|2] [--] FILE ..: prints a line for each file, `verified FILE` or
   `refused FILE`. The exit status is that of `vipr check`: 0 if all are verified, 1 if one is
   refused, 2 if the command line is wrong, and 3 if a file can't be read, an answer can't be
   written, or memory doesn't suffice and OCaml can say so. *)

let contents file =
  let channel = open_in_bin file in
  Fun.protect
    ~finally:(fun () -> close_in channel)
    (fun () -> really_input_string channel (in_channel_length channel))

(* A line feed in a name would begin a line that looks like an answer. *)
let printable name =
  let escaped = Buffer.create (String.length name) in
  let add character =
    if character < ' ' || character = '\127' || character = '\\' then
      Printf.bprintf escaped "\\x%02x" (Char.code character)
    else Buffer.add_char escaped character
  in
  String.iter add name;
  Buffer.contents escaped

let fault what file =
  Printf.eprintf "fault %s %s\n%!" what (printable file);
  3

(* What is new in memory has half as much room as the text, and garbage is collected early. *)
let collect_early text =
  let minor_heap_size = max 32_768 (String.length text / 16) in
  Gc.set { (Gc.get ()) with minor_heap_size; space_overhead = 50; allocation_policy = 2 }

let answer profile file =
  let text = contents file in
  collect_early text;
  Core.check_bytes profile (text, 0)

(* An answer that can't be written ends the run: what comes after it couldn't be, either. *)
let say verdict file =
  try Printf.printf "%s %s\n%!" verdict (printable file)
  with Sys_error _ ->
    close_out_noerr stdout;
    exit (fault "write" file)

let check profile file =
  match answer profile file with
  | Core.Verified -> say "verified" file; 0
  | Core.Refused -> say "refused" file; 1
  | exception (Sys_error _ | End_of_file) -> fault "read" file
  | exception (Out_of_memory | Stack_overflow) -> fault "memory" file

let usage () =
  prerr_endline "usage: vipr-rocq [--profile 1|2] [--] FILE ..";
  exit 2

let is_option word = String.length word > 1 && word.[0] = '-'

(* The profile and the files. After `--` each word is a file. *)
let rec words profile = function
  | "--profile" :: "1" :: rest -> words Core.Profile1 rest
  | "--profile" :: "2" :: rest -> words Core.Profile2 rest
  | "--" :: (_ :: _ as files) -> (profile, files)
  | _ :: _ as files when not (List.exists is_option files) -> (profile, files)
  | _ -> usage ()

let () =
  let profile, files = words Core.Profile1 (List.tl (Array.to_list Sys.argv)) in
  exit (List.fold_left max 0 (List.map (check profile) files))
