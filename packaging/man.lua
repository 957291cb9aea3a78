-- Makes of docs/COMMANDS.md what a manual page shows well: links are their words, and tables are lists of terms.

function Link(link)
  return link.content
end

-- The cell, after the word that its column begins with where there are several.
local function told(header, cell, several)
  if not several then
    return cell
  end
  local words = pandoc.utils.blocks_to_inlines(header)
  words:extend({ pandoc.Str(":"), pandoc.Space() })
  words:extend(pandoc.utils.blocks_to_inlines(cell))
  return { pandoc.Plain(words) }
end

function Table(found)
  local simple = pandoc.utils.to_simple_table(found)
  local items = {}
  for _, row in ipairs(simple.rows) do
    local rest = {}
    for i = 2, #row do
      for _, block in ipairs(told(simple.headers[i], row[i], #row > 2)) do
        table.insert(rest, pandoc.Para(block.content))
      end
    end
    table.insert(items, { pandoc.utils.blocks_to_inlines(row[1]), { rest } })
  end
  return pandoc.DefinitionList(items)
end

-- Code is bold in a line, and as it stands in lines of its own, in fonts that each groff has.

function Code(code)
  return pandoc.Strong(pandoc.Str(code.text))
end

function CodeBlock(block)
  local text = block.text:gsub("\\", "\\e"):gsub("%-", "\\-")
  text = ("\n" .. text):gsub("\n([.'])", "\n\\&%1")
  return pandoc.RawBlock("man", ".PP\n.RS 7\n.nf" .. text .. "\n.fi\n.RE")
end
