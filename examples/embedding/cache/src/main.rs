//! A cache with prefix invalidation: pages under their paths. What is below a path is dropped by one walk over the rows
//! there. A view counts the bytes of what is cached.

use rowanspan::{Error, Index, Keys, Options, RowTest, View};

struct Cache {
    index: Index,
    sizes: View,
}

impl Cache {
    fn new() -> Result<Cache, Error> {
        let mut index = Index::open(Options::default().columns(2))?;
        let sizes = index.build(Keys::Prefix(b""), RowTest::Any)?;
        Ok(Cache { index, sizes })
    }

    fn get(&self, path: &str) -> Result<Option<String>, Error> {
        let page = self.index.get_column(path, 0)?;
        Ok(page.map(|page| String::from_utf8_lossy(&page).into_owned()))
    }

    fn put(&mut self, path: &str, page: &str) -> Result<(), Error> {
        let size = [page.len() as u8];
        self.index.put(path, &[(0, page.as_bytes()), (1, &size)])?;
        self.index.keep_views()?;
        Ok(())
    }

    // Drops what is below a path, and returns how many pages that were.
    fn invalidate(&mut self, path: &str) -> Result<usize, Error> {
        let pairs = self.index.prefix(path);
        let below = pairs.collect::<Result<Vec<_>, Error>>()?;
        for (key, _) in &below {
            self.index.remove(key)?;
        }
        self.index.keep_views()?;
        Ok(below.len())
    }

    fn print(&self) -> Result<(), Error> {
        let page = self.index.view(self.sizes, 0, "", 1)?;
        println!("{} pages of {} bytes", page.count, page.sums[1]);
        Ok(())
    }
}

fn main() -> Result<(), Error> {
    let mut cache = Cache::new()?;
    for shelf in ["books", "books/old", "maps"] {
        for number in 1..=3 {
            cache.put(
                &format!("/{shelf}/{number}"),
                &format!("page {number} of {shelf}"),
            )?;
        }
    }
    println!("{:?}", cache.get("/books/old/2")?);
    cache.print()?;
    println!(
        "{} pages below /books/old/ are gone",
        cache.invalidate("/books/old/")?
    );
    println!(
        "{:?} {:?}",
        cache.get("/books/old/2")?,
        cache.get("/books/2")?
    );
    cache.print()
}
