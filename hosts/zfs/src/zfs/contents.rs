//! Two words that zfs(8) hasn't: contents, for tests. Nothing is mounted, so this is how a file system is written to and read.

use crate::call::Call;
use crate::failure::{Failure, Outcome};
use crate::layer::Refusal;
use crate::protocol::Status;

const WRITE: &str = "usage: zfs yuz-write FILESYSTEM OBJECT BLOCK COUNT HEX";
const READ: &str = "usage: zfs yuz-read DATASET OBJECT BLOCK";

fn number(word: &str, usage: &str) -> Outcome<u32> {
    word.parse().map_err(|_| Failure::ToldWith(Status::BadUsage, usage.into()))
}

/// `yuz-write FILESYSTEM OBJECT BLOCK COUNT HEX`: so many blocks alike, of 1 to 512 bytes and zeros after them.
pub fn write(call: &mut Call, words: &[String]) -> Outcome {
    let [name, object, block, count, hex] = words else { return Err(Failure::ToldWith(Status::BadUsage, WRITE.into())) };
    let (object, block, count) = (number(object, WRITE)?, number(block, WRITE)?, number(count, WRITE)?);
    let bytes = bytes_of(hex).filter(|bytes| (1..=512).contains(&bytes.len())).ok_or_else(|| Failure::ToldWith(Status::BadUsage, WRITE.into()))?;
    let pool = call.pool_of(name)?;
    let name = name.clone();
    call.change(&pool, move |host| {
        let path = host.open(&name)?.path;
        (block..block.saturating_add(count)).try_for_each(|block| host.layer.write(&path, object, block, &bytes)).map_err(|refusal| {
            let reason = match refusal {
                Refusal::Quota | Refusal::RefQuota => "Disk quota exceeded".into(),
                Refusal::NoSpace => "No space left on device".into(),
                Refusal::ReadOnly => "Read-only file system".into(),
                other => other.to_string(),
            };
            Failure::Told(format!("{name}: {reason}"))
        })
    })
}

/// `yuz-read DATASET OBJECT BLOCK`: a block's 1,024 digits, or `hole`.
pub fn read(call: &mut Call, words: &[String]) -> Outcome {
    let [name, object, block] = words else { return Err(Failure::ToldWith(Status::BadUsage, READ.into())) };
    let (object, block) = (number(object, READ)?, number(block, READ)?);
    let pool = call.pool_of(name)?;
    let name = name.clone();
    let text = pool.run(move |host| {
        let path = host.open(&name)?.path;
        let block = host.layer.read(&path, object, block).map_err(|refusal| Failure::Told(format!("{name}: {refusal}")))?;
        Ok(block.map_or_else(|| "hole".into(), |bytes| bytes.iter().map(|byte| format!("{byte:02x}")).collect::<String>()))
    })??;
    call.output.line(&text);
    Ok(())
}

fn bytes_of(hex: &str) -> Option<Vec<u8>> {
    if !hex.is_ascii() || !hex.len().is_multiple_of(2) {
        return None;
    }
    (0..hex.len()).step_by(2).map(|at| u8::from_str_radix(&hex[at..at + 2], 16).ok()).collect()
}
