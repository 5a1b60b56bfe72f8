(* What the definitions say of each line of the input, which has a kind and words with tabs between them; program.rs
   says the same of a crate:

   - `word`: a string, by each field: its value, and what follows from that alone;
   - `string`: its triple, and what that answers; or the refusal;
   - `triple`: the names of the five fields, of which a custom vendor has `=` before it: its answers;
   - `pair`: two of these: whether they are equal, and the order of their versions;
   - `model`: the sizes of a data model;
   - `all`: an architecture, and all systems, environments and formats, with spaces between them: a checksum of the
     answers of all these triples.

   With the argument `upstream` triples print by upstream's rule, and only what upstream's crate has is said. With
   `ask`, a definition and a word it says what that definition says of the word. *)
open Spec
open Shown

let bytes s = List.init (String.length s) (fun i -> Char.code s.[i])
let words = String.split_on_char '\t'
let line = String.concat "\t"
let yes b = if b then "yes" else "no"
let opt f = function Some x -> f x | None -> "-"
let is_ours = Array.length Sys.argv < 2
let printed t = if is_ours then string_of t else upstream_string_of t

let queries t =
  [ opt show_endianness (endianness0 t); opt show_pointerWidth (pointer_width t);
    opt show_callingConvention (calling_convention t); opt show_cDataModel (data_model t) ]

(* Prints and parses a triple until that changes nothing. *)
let rec canonical t =
  match reading (printed t) with
  | Result__Ok u when u = t -> str (printed t)
  | Result__Ok u -> canonical u
  | Result__Err _ -> "-"

let vendor = function VendorValue__Known x -> show_knownVendor x | x -> show_vendorValue x
let fields t =
  line [ show_architecture t.values__architecture; vendor t.values__vendor;
    show_operatingSystem t.values__operating_system; show_environment t.values__environment;
    show_binaryFormat t.values__binary_format ]
let only_ours t =
  let is_plain = is_plain t.values__vendor in
  [ str (upstream_string_of t); opt show_roundTripException (exception0 t); show_binaryFormat (default_binary_format t);
    yes is_plain; (if is_plain then fields (canonical_values t) else "-"); fields (normal_step t) ]
let of_triple t = line (str (printed t) :: queries t @ if is_ours then only_ours t else [])

let of_string s =
  match reading (bytes s) with
  | Result__Ok t -> line [ fields t; of_triple t; canonical t ]
  | Result__Err e -> line [ "Unrecognized" ^ (match e.refusal__expected with Some f -> show_field f | None -> "Field");
      str (refusal_line e) ]

let of_width x = line [ str (width_name x); string_of_int (width_bytes x) ]
let of_architecture a =
  line [ str (architecture_name a); opt show_endianness (architecture_endianness a);
    opt of_width (architecture_width a); yes (is_clever a);
    opt (fun a -> yes (is_thumb a) ^ show_endianness (arm_endianness a)) (as_arm a);
    opt (fun a -> show_endianness (aarch64_endianness a)) (as_aarch64 a) ]
let of_word s =
  let w = bytes s in
  let part f name = opt (fun x -> str (name x)) (sub_architecture_of f w) in
  let a, v, o, e, b =
    architecture_of w, vendor_of w, operating_system_of w, environment_of w, binary_format_of w in
  line ([ opt show_architecture a; opt vendor v; opt show_operatingSystem o; opt show_environment e;
    opt show_binaryFormat b; opt of_architecture a; opt (fun v -> str (vendor_name v)) v;
    opt (fun o -> str (operating_system_name o) ^ yes (is_like_darwin o)) o; opt (fun e -> str (environment_name e)) e;
    opt (fun b -> str (binary_format_name b)) b;
    (* written by tools/names/write: families of words, extracted *)
    part as_arm arm_name;
    part as_aarch64 aarch64_name;
    part as_x86_32 x86_32_name;
    part as_mips32 mips32_name;
    part as_mips64 mips64_name;
    part as_riscv32 riscv32_name;
    part as_riscv64 riscv64_name;
    part as_clever clever_name;
    (* end of what is written *)
  ]
    @ if is_ours then [ opt (fun v -> str (version_name v)) (version_of w) ] else [])

let value of_name s = match of_name (bytes s) with Some x -> x | None -> failwith ("no value has the name " ^ s)
let named_vendor s =
  if s = "" || s.[0] <> '=' then value vendor_of s
  else VendorValue__Custom (bytes (String.sub s 1 (String.length s - 1)))
let named = function
  | a :: v :: o :: e :: b :: rest ->
      values_values (value architecture_of a) (named_vendor v) (value operating_system_of o) (value environment_of e)
        (value binary_format_of b), rest
  | _ -> failwith "a triple has five names"

(* Values are ordered by their names; a custom vendor follows the known one, and a system without a version precedes
   those with one. *)
let key_of_version t =
  Option.map (fun v -> v.deploymentTarget__major, v.deploymentTarget__minor, v.deploymentTarget__patch)
    (system_version t.values__operating_system)
let key t =
  let name = operating_system_name t.values__operating_system in
  let length = List.length name - List.length (version_suffix (system_version t.values__operating_system)) in
  architecture_name t.values__architecture, (vendor_name t.values__vendor, is_custom t.values__vendor),
  List.filteri (fun i _ -> i < length) name, key_of_version t, environment_name t.values__environment,
  binary_format_name t.values__binary_format
let of_pair names =
  let t, rest = named names in
  let u, _ = named rest in
  let order key = string_of_int (compare (key t) (key u)) in
  line ([ yes (t = u); string_of_int (compare (key_of_version t) (key_of_version u)) ]
    @ if is_ours then [ order key; yes (canonical_values t = canonical_values u) ] else [])

let models = [ CDataModel__LP32; CDataModel__ILP32; CDataModel__LLP64; CDataModel__LP64; CDataModel__ILP64 ]
let of_model name =
  let s = sizes_of (List.find (fun m -> show_cDataModel m = name) models) in
  line (List.map (fun x -> Printf.sprintf "%d %d" (size_bits x) (size_bytes x)) [ s.sizes__short; s.sizes__int;
    s.sizes__long; s.sizes__long_long; s.sizes__pointer; s.sizes__float; s.sizes__double ])

(* FNV-1a, of 32 bits. *)
let fed sum byte = (sum lxor byte) * 0x01000193 land 0xffffffff
let vendors = List.map (value vendor_of) [ "unknown"; "pc"; "nintendo"; "espressif" ]
let of_all a systems environments formats =
  let of_names of_name names = List.map (value of_name) (String.split_on_char ' ' names) in
  let a, sum, formats = value architecture_of a, ref 0x811c9dc5, of_names binary_format_of formats in
  let environments = of_names environment_of environments in
  let feed text = sum := fed (List.fold_left fed !sum text) 10 in
  let of_two o e =
    let t = values_values a (List.hd vendors) o e (List.hd formats) in
    let t = { t with values__binary_format = default_binary_format t } in
    List.iter (fun x -> feed (bytes x)) (show_binaryFormat t.values__binary_format :: queries t);
    List.iter (fun v -> List.iter (fun b ->
      feed (printed { t with values__vendor = v; values__binary_format = b })) formats) vendors in
  List.iter (fun o -> List.iter (of_two o) environments) (of_names operating_system_of systems);
  Printf.sprintf "%08x" !sum

let of_line l =
  match words l with
  | [ "word"; w ] -> of_word w
  | "string" :: s -> of_string (line s)
  | "triple" :: names -> of_triple (fst (named names))
  | "pair" :: names -> of_pair names
  | [ "model"; name ] -> of_model name
  | [ "all"; a; systems; environments; formats ] -> of_all a systems environments formats
  | _ -> failwith ("a line of no kind: " ^ l)

(* What may be asked of a triple. *)
let of_triples = [
  "string_of", (fun t -> str (string_of t));
  "upstream_string_of", (fun t -> str (upstream_string_of t));
  "exception", (fun t -> show_option show_roundTripException (exception0 t));
  "normal_step", (fun t -> show_values (normal_step t));
  "canonical_values", (fun t -> show_values (canonical_values t));
  "canonical_string", (fun t -> str (canonical_string t));
  "default_binary_format", (fun t -> show_binaryFormat (default_binary_format t));
  "endianness", (fun t -> show_option show_endianness (endianness0 t));
  "pointer_width", (fun t -> show_option show_pointerWidth (pointer_width t));
  "calling_convention", (fun t -> show_option show_callingConvention (calling_convention t));
  "data_model", (fun t -> show_option show_cDataModel (data_model t)) ]

let known_vendor s =
  match vendor_of (bytes s) with Some (VendorValue__Known _ as v) -> v | _ -> VendorValue__Custom (bytes s)
(* The triple that a string parses as, or that of five names with commas between them. *)
let triple s =
  match String.split_on_char ',' s, reading (bytes s) with
  | [ a; v; o; e; b ], _ -> { (fst (named [ a; "unknown"; o; e; b ])) with values__vendor = known_vendor v }
  | _, Result__Ok t -> t
  | _, Result__Err e -> failwith (str (refusal_line e))
let asked definition s =
  if definition = "reading" then show_result show_values show_refusal (reading (bytes s))
  else match List.assoc_opt definition of_triples with
    | Some f -> f (triple s)
    | None -> failwith ("what may be asked is reading, " ^ String.concat ", " (List.map fst of_triples))

let () =
  match Array.to_list Sys.argv with
  | [ _; "ask"; definition; s ] -> (
      try print_endline (asked definition s) with Failure why -> prerr_endline ("specification: " ^ why); exit 2)
  | _ -> try while true do print_string (of_line (input_line stdin) ^ "\n") done with End_of_file -> ()
