//! Links the kit's archive, libnotchbadger.a, from the folder that NOTCHBADGER_LIB names.

fn main() {
    println!("cargo:rerun-if-env-changed=NOTCHBADGER_LIB");
    match std::env::var("NOTCHBADGER_LIB") {
        Ok(folder) => {
            println!("cargo:rerun-if-changed={folder}/libnotchbadger.a");
            println!("cargo:rustc-link-search=native={folder}");
            println!("cargo:rustc-link-lib=static=notchbadger");
        }
        Err(_) => {
            eprintln!("NOTCHBADGER_LIB is not set: give the whole path of the folder that has libnotchbadger.a");
            std::process::exit(1);
        }
    }
}
