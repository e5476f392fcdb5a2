-- For pandoc: a link to a page of this release leads to its HTML, a link to another file of it stays, and of a link to a
-- file that a release doesn't hold the words stay. RELEASE is the release's folder, PAGE the page's path in it.
local release = os.getenv("RELEASE")
local folder = (os.getenv("PAGE")):match("^(.*)/[^/]*$") or "."

local function exists(path)
    local ok, _, code = os.rename(path, path)
    return ok or code == 13
end

function Link(link)
    local target = link.target
    if target:match("^%a+:") or target:match("^#") then
        return link
    end
    local path, fragment = target:match("^([^#]*)(#?.*)$")
    if not exists(release .. "/" .. folder .. "/" .. path) then
        return link.content
    end
    local page, pages = path:gsub("%.md$", ".html")
    if pages > 0 then
        link.target = page .. fragment
    end
    return link
end
