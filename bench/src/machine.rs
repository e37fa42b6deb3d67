//! The processor's name, and whether there is one.

use std::env::consts::ARCH;
use std::fs;
use std::process::Command;

/// Why this process seems to run under an emulator, where it does.
pub fn sign_of_emulation() -> Option<String> {
    let text = cpuinfo();
    sign_in_names(&text).or_else(|| sign_in_instructions(&text))
}

/// Its model and its kind. On Arm the kernel gives numbers alone, and `lscpu` the names that belong to them.
pub fn processor() -> String {
    let text = cpuinfo();
    let model = field(&text, "model name").or_else(|| field(&lscpu(), "Model name")).unwrap_or_else(|| {
        let part = |name| field(&text, name).unwrap_or_else(|| "unknown".to_string());
        format!("implementer {}, part {}", part("CPU implementer"), part("CPU part"))
    });
    format!("{model}, {ARCH}")
}

fn cpuinfo() -> String {
    fs::read_to_string("/proc/cpuinfo").unwrap_or_default()
}

fn lscpu() -> String {
    let said = Command::new("lscpu").env("LC_ALL", "C").output();
    said.map_or_else(|_| String::new(), |said| String::from_utf8_lossy(&said.stdout).into_owned())
}

/// The first value of that name; a dash is none.
fn field(text: &str, name: &str) -> Option<String> {
    let lines = text.lines().filter_map(|line| line.split_once(':'));
    let mut values = lines.filter(|(found, _)| found.trim() == name).map(|(_, value)| value.trim());
    values.find(|value| !matches!(*value, "" | "-")).map(str::to_string)
}

/// A user-mode emulator shows the processors of the machine below it, or one that nobody makes.
fn sign_in_names(text: &str) -> Option<String> {
    let field_of_this_kind = if cfg!(target_arch = "x86_64") { "vendor_id" } else { "CPU implementer" };
    if !text.lines().any(|line| line.starts_with(field_of_this_kind)) {
        return Some(format!("/proc/cpuinfo is not that of {ARCH}"));
    }
    text.contains("VirtualApple").then(|| "/proc/cpuinfo names VirtualApple".to_string())
}

/// QEMU without hardware help says so in the leaf that hypervisors answer.
#[cfg(target_arch = "x86_64")]
#[allow(unused_unsafe)] // unsafe in older compilers, safe in newer ones
fn sign_in_instructions(_: &str) -> Option<String> {
    // SAFETY: every x86-64 processor has the instruction.
    let leaf = unsafe { core::arch::x86_64::__cpuid(0x4000_0000) };
    let bytes = [leaf.ebx, leaf.ecx, leaf.edx].map(u32::to_le_bytes).concat();
    (bytes == b"TCGTCGTCGTCG").then(|| "the processor calls itself TCG".to_string())
}

/// The register of the processor's identity must be that of a processor in /proc/cpuinfo, and of a maker. An emulator of
/// Arm on Arm shows the machine's file beside a register of its own.
#[cfg(target_arch = "aarch64")]
fn sign_in_instructions(text: &str) -> Option<String> {
    if !field(text, "Features")?.split(' ').any(|feature| feature == "cpuid") {
        return None;
    }
    let identity: u64;
    // SAFETY: where the kernel names that feature, it lets programs read the register.
    unsafe { core::arch::asm!("mrs {}, midr_el1", out(reg) identity, options(nomem, nostack, preserves_flags)) };
    let of_register = (identity >> 24 & 0xff, identity >> 20 & 0xf, identity >> 4 & 0xfff, identity & 0xf);
    let known = text.split("\n\n").filter_map(of_text).any(|of_text| of_text == of_register);
    (!known || of_register.0 == 0).then(|| "the processor's identity register is not that of /proc/cpuinfo".to_string())
}

/// Implementer, variant, part and revision of one processor of /proc/cpuinfo.
#[cfg(target_arch = "aarch64")]
fn of_text(text: &str) -> Option<(u64, u64, u64, u64)> {
    let number = |name| {
        let value = field(text, name)?;
        value.strip_prefix("0x").map_or_else(|| value.parse().ok(), |digits| u64::from_str_radix(digits, 16).ok())
    };
    Some((number("CPU implementer")?, number("CPU variant")?, number("CPU part")?, number("CPU revision")?))
}
